; In place of timed initial literals `(at 10 (clear))` and `(at 25 (not (clear)))`: two steps that
; follow one another, the first of which starts the clock. Nothing else may begin before it.
(define (domain weather)
  (:requirements :durative-actions)
  (:predicates (not-begun) (clock-runs) (cloudy-spell-over) (clear) (observed))
  (:durative-action clouds
    :parameters ()
    :duration (= ?duration 10)
    :condition (at start (not-begun))
    :effect (and (at start (not (not-begun))) (at start (clock-runs))
                 (at end (cloudy-spell-over)) (at end (clear))))
  (:durative-action clear-sky
    :parameters ()
    :duration (= ?duration 14)
    :condition (at start (cloudy-spell-over))
    :effect (and (at start (not (cloudy-spell-over))) (at end (not (clear)))))
  (:durative-action observe
    :parameters ()
    :duration (= ?duration 5)
    :condition (and (at start (clock-runs)) (over all (clear)))
    :effect (at end (observed))))
