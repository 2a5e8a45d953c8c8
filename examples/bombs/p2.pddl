(define (problem bombs-p2)
  (:domain bombs)
  (:objects p1 p2 p3 p4 p5 p6 p7 p8 p9 p10 - package)
  (:init
    (oneof (armed p1) (armed p2) (armed p3) (armed p4) (armed p5) (armed p6) (armed p7) (armed p8) (armed p9) (armed p10))
  )
  (:goal (safe)))
