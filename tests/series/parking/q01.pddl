(define (problem p) (:domain parking)
 (:objects car0 car1 - car curb0 curb1 curb2 - curb)
 (:init
  (at-curb car1)
  (at-curb-num car1 curb0)
  (car-clear car1)
  (at-curb car0)
  (at-curb-num car0 curb1)
  (car-clear car0)
  (curb-clear curb2))
 (:goal (and
  (at-curb-num car0 curb0)
  (at-curb-num car1 curb1))))
