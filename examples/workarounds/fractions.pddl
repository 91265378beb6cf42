; A pump fills 2.5 litres a minute for 1.5 minutes: litres in tenths, minutes as seconds.
(define (domain fractions)
  (:requirements :durative-actions :numeric-fluents :duration-inequalities)
  (:predicates (idle))
  (:functions (tenths-of-litres) (tenths-per-minute) (seconds-of-filling))
  (:durative-action fill
    :parameters ()
    :duration (= ?duration (seconds-of-filling))
    :condition (at start (idle))
    :effect (and (at start (not (idle))) (at end (idle))
                 (at end (increase (tenths-of-litres) (tenths-per-minute))))))
