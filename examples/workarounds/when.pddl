; In place of `(when (lamp-on) (not (lamp-on)))` and `(when (not (lamp-on)) (lamp-on))`: one action
; for each case, its condition with the others.
(define (domain when)
  (:requirements :negative-preconditions)
  (:predicates (lamp-on))
  (:action press-while-dark
    :parameters ()
    :precondition (not (lamp-on))
    :effect (lamp-on))
  (:action press-while-lit
    :parameters ()
    :precondition (lamp-on)
    :effect (not (lamp-on))))
