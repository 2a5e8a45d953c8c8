(define (problem bombs-toilets-p2)
  (:domain bombs-toilets)
  (:objects p1 p2 p3 p4 p5 p6 p7 p8 - package t1 t2 t3 - toilet)
  (:init
    (oneof (armed p1) (armed p2) (armed p3) (armed p4) (armed p5) (armed p6) (armed p7) (armed p8))
  )
  (:goal (safe)))
