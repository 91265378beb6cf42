(define (problem one-picture)
  (:domain weather)
  (:init (not-begun))
  (:goal (observed)))
