(define (problem safe-p3)
  (:domain safe)
  (:objects c1 c2 c3 c4 c5 c6 c7 c8 c9 c10 c11 c12 c13 c14 c15 c16 c17 c18 c19 c20 c21 c22 c23 c24 c25 c26 c27 c28 c29 c30 - combination)
  (:init
    (oneof (right c1) (right c2) (right c3) (right c4) (right c5) (right c6) (right c7) (right c8) (right c9) (right c10) (right c11) (right c12) (right c13) (right c14) (right c15) (right c16) (right c17) (right c18) (right c19) (right c20) (right c21) (right c22) (right c23) (right c24) (right c25) (right c26) (right c27) (right c28) (right c29) (right c30))
  )
  (:goal (open)))
