(define (problem bombs-p1)
  (:domain bombs)
  (:objects p1 p2 p3 - package)
  (:init
    (oneof (armed p1) (armed p2) (armed p3))
  )
  (:goal (safe)))
