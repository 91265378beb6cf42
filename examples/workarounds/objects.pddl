; In place of a function whose value is an object: a predicate of which one atom at most is true, and
; each change deletes the old one. In place of `either` in a declaration: a type above both. In place
; of a derived predicate: its definition, in each condition.
(define (domain objects)
  (:requirements :typing :existential-preconditions)
  (:types telescope radio - instrument instrument dome)
  (:predicates (holds ?d - dome ?i - instrument) (shut ?d - dome) (used ?i - instrument))
  (:action exchange
    :parameters (?d - dome ?old ?new - instrument)
    :precondition (and (holds ?d ?old) (not (= ?old ?new)))
    :effect (and (not (holds ?d ?old)) (holds ?d ?new)))
  (:action use
    :parameters (?i - instrument)
    ; (in-the-open ?i), derived: some open dome holds it
    :precondition (exists (?d - dome) (and (holds ?d ?i) (not (shut ?d))))
    :effect (used ?i)))
