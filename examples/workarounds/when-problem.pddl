(define (problem light)
  (:domain when)
  (:init)
  (:goal (lamp-on)))
