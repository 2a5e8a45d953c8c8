(define (problem row3)
  (:domain row)
  (:objects c1 c2 c3 - cell)
  (:init
    (oneof (at c1) (at c2) (at c3))
    (next c1 c2) (next c2 c3))
  (:goal (at c2)))
