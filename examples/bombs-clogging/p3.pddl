(define (problem bombs-clogging-p3)
  (:domain bombs-clogging)
  (:objects p1 p2 p3 p4 p5 p6 - package t1 t2 - toilet)
  (:init
    (oneof (armed p1) (armed p2) (armed p3) (armed p4) (armed p5) (armed p6))
  )
  (:goal (safe)))
