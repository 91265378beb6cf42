; One sensor, one bench: eva clamps the probe, measures its ripple and lets it go.
(define (problem one-sensor)
  (:domain test-bench)
  (:objects
    table - shaker
    cup - fixture
    eva - engineer
    probe - sensor)

  (:init
    (idle eva)
    (trained eva table)
    (free cup)
    (suits cup probe)
    (cold table)

    (= (shift-length) 400)
    (= (draw) 50) (= (supply) 2000) (= (energy-used) 0)
    (= (warm-up-power table) 300) (= (holding-power table) 100)
    (= (warm-up-time table) 8) (= (cool-down-time table) 5)
    (= (meter-power drift) 40) (= (meter-power noise) 60) (= (meter-power ripple) 25)
    (= (samples drift) 20) (= (samples noise) 12) (= (samples ripple) 5)
    (= (sample-time table) 1)
    (= (gain table) 10)
    (= (quota table) 10)
    (= (amplitude table) 6)

    (wanted probe ripple))

  (:goal (and
    (measured probe ripple)
    (released probe))))
