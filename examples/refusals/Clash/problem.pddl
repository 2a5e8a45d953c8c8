(define (problem three)
  (:domain cells)
  (:init (or (x1) (x2) (x3)))
  (:goal (x1)))
