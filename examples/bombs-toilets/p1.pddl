(define (problem bombs-toilets-p1)
  (:domain bombs-toilets)
  (:objects p1 p2 p3 - package t1 t2 - toilet)
  (:init
    (oneof (armed p1) (armed p2) (armed p3))
  )
  (:goal (safe)))
