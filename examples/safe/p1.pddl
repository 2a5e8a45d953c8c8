(define (problem safe-p1)
  (:domain safe)
  (:objects c1 c2 c3 - combination)
  (:init
    (oneof (right c1) (right c2) (right c3))
  )
  (:goal (open)))
