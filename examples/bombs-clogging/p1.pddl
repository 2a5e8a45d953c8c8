(define (problem bombs-clogging-p1)
  (:domain bombs-clogging)
  (:objects p1 p2 p3 - package t1 - toilet)
  (:init
    (oneof (armed p1) (armed p2) (armed p3))
  )
  (:goal (safe)))
