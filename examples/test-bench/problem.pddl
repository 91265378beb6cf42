; A morning in the laboratory: three units on three benches, and one cable.
(define (problem morning)
  (:domain test-bench)
  (:objects
    oven chamber - thermal-bench
    table - shaker
    plate vice cup rail - fixture
    ann ben - technician
    eva - engineer
    inverter rectifier charger - module
    probe gauge - sensor
    harness - cable)

  (:init
    (idle ann) (idle ben) (idle eva)
    (trained ann oven) (trained ann chamber)
    (trained ben table) (trained ben chamber)
    (trained eva oven) (trained eva chamber) (trained eva table)
    (free plate) (free vice) (free cup) (free rail)
    (suits plate inverter) (suits plate rectifier) (suits plate charger)
    (suits vice inverter) (suits vice charger)
    (suits cup probe) (suits cup gauge) (suits rail probe) (suits rail rectifier)
    (cold oven) (cold chamber) (cold table)

    (= (shift-length) 400)
    (= (draw) 50) (= (supply) 2000) (= (energy-used) 0)
    (= (warm-up-power oven) 1200) (= (holding-power oven) 400)
    (= (warm-up-power chamber) 700) (= (holding-power chamber) 250)
    (= (warm-up-power table) 300) (= (holding-power table) 100)
    (= (warm-up-time oven) 40) (= (cool-down-time oven) 30)
    (= (warm-up-time chamber) 25) (= (cool-down-time chamber) 20)
    (= (warm-up-time table) 8) (= (cool-down-time table) 5)
    (= (meter-power drift) 40) (= (meter-power noise) 60) (= (meter-power ripple) 25)
    (= (samples drift) 20) (= (samples noise) 12) (= (samples ripple) 5)
    (= (sample-time oven) 2) (= (sample-time chamber) 1) (= (sample-time table) 1)
    (= (gain oven) 1) (= (gain chamber) 10) (= (gain table) 10)
    (= (quota oven) 30) (= (quota chamber) 30) (= (quota table) 10)
    (= (amplitude table) 6)

    (wanted inverter drift) (wanted inverter ripple)
    (wanted rectifier noise)
    (wanted probe noise) (wanted probe ripple)
    (wanted harness ripple))

  (:goal (and
    (released inverter) (released probe) (released harness)
    (measured rectifier noise)
    (forall (?b - bench) (cold ?b))
    (<= (energy-used) (* 2 40000)))))
