(define (problem bench-12)
  (:domain test-bench)
  (:objects
    u1 u2 - unit
    chamber1 - chamber
    scope1 - scope
    ripple - measurement
    cold - setpoint)
  (:init
    (= (power-left) 17)
    (at-temp chamber1 room)
    (= (slots chamber1) 2)
    (= (coolant chamber1) 4)
    (= (draw u1) 3)
    (= (draw u2) 4)
    (= (draw scope1) 4)
    (= (draw chamber1) 9)
    (waiting u1)
    (= (soak-time u1) 18)
    (waiting u2)
    (= (soak-time u2) 27)
    (measures scope1 ripple)
    (= (time-for ripple) 3)
    (free scope1)
    (standard-for scope1 coolant-a)
    (= (calibration-time scope1) 15)
    (= (use scope1) 0)
    (= (validity scope1) 240)
    (standard-free coolant-a)
    (standard-free coolant-b)
    (= (ramp-time room cold) 9)
    (= (ramp-time cold room) 9))
  (:goal (and
    (measured u1 ripple cold)
    (measured u2 ripple cold)
    (forall (?u - unit) (finished ?u))))
)
