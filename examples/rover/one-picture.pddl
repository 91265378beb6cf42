; One picture: ada drives to the ridge, takes a picture of the butte, and sends it
; while the relay passes.
(define (problem one-picture)
  (:domain rover)
  (:objects
    ridge - waypoint
    ada - rover
    relay-east - orbiter
    east-1 - pass
    butte - objective
    wide - camera)

  (:init
    (at ada lander-site)
    (arm-stowed ada)
    (on-board wide ada)
    (= (pace ada) 2) (= (effort ada) 3)
    (= (energy ada) 40) (= (capacity ada) 60)
    (= (reserve) 5)
    (= (odometer ada) 0)
    (= (load ada) 0) (= (hold-size ada) 2)
    (= (bit-wear ada) 1)

    (in-sight butte ridge)
    (= (exposure wide) 4)

    (next-pass relay-east east-1)
    (= (pass-length east-1) 25)
    (= (dishes relay-east) 1)
    (= (channels relay-east) 0)
    (= (bandwidth relay-east) 2)
    (= (volume-sent) 0)
    (= (record-size butte) 8)

    (firm lander-site ridge) (firm ridge lander-site)
    (= (distance lander-site ridge) 4) (= (distance ridge lander-site) 4))

  (:goal (and
    (at ada ridge)
    (calibrated wide)
    (record ada butte)
    (received butte))))
