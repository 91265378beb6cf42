; Sums of three are nested; a share is compared by a product, since nothing is divided; a change that
; goes on while a step lasts is applied as a whole: taken at the start, what is left given at the end.
(define (domain numbers)
  (:requirements :durative-actions :numeric-fluents :duration-inequalities)
  (:predicates (dug))
  (:functions (charge) (reserve) (of-arm) (of-drill) (of-lamp) (depth) (depth-wanted))
  (:durative-action dig
    :parameters ()
    :duration (and (>= ?duration 1) (<= ?duration 6))
    :condition (and (at start (>= (charge)
                                  (+ (reserve) (+ (of-arm) (+ (of-drill) (of-lamp))))))
                    (over all (>= (charge) (reserve))))
    :effect (and (at start (decrease (charge) (* ?duration (of-drill))))
                 (at end (increase (depth) (* ?duration 3)))))
  (:action look
    :parameters ()
    ; a third of the depth that is wanted, (/ (depth-wanted) 3)
    :precondition (>= (* (depth) 3) (depth-wanted))
    :effect (dug)))
