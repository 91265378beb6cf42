(define (problem bench-11)
  (:domain test-bench)
  (:objects
    u1 - unit
    chamber1 - chamber
    scope1 - scope
    ripple - measurement
    cold - setpoint)
  (:init
    (= (power-left) 17)
    (at-temp chamber1 room)
    (= (slots chamber1) 1)
    (= (coolant chamber1) 4)
    (= (draw u1) 1)
    (= (draw scope1) 2)
    (= (draw chamber1) 8)
    (waiting u1)
    (= (soak-time u1) 12)
    (measures scope1 ripple)
    (= (time-for ripple) 5)
    (free scope1)
    (standard-for scope1 coolant-a)
    (= (calibration-time scope1) 10)
    (= (use scope1) 0)
    (= (validity scope1) 240)
    (standard-free coolant-a)
    (standard-free coolant-b)
    (= (ramp-time room cold) 9)
    (= (ramp-time cold room) 9))
  (:goal (and
    (measured u1 ripple cold)
    (forall (?u - unit) (finished ?u))))
)
