(define (problem safe-p2)
  (:domain safe)
  (:objects c1 c2 c3 c4 c5 c6 c7 c8 c9 c10 - combination)
  (:init
    (oneof (right c1) (right c2) (right c3) (right c4) (right c5) (right c6) (right c7) (right c8) (right c9) (right c10))
  )
  (:goal (open)))
