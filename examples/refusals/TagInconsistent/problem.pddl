(define (problem three)
  (:domain cells)
  (:init (oneof (x1) (x2) (x3)))
  (:goal (x1)))
