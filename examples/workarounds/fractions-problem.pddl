(define (problem one-filling)
  (:domain fractions)
  (:init (idle) (= (tenths-of-litres) 0) (= (tenths-per-minute) 25) (= (seconds-of-filling) 90))
  (:goal (>= (tenths-of-litres) 25)))
