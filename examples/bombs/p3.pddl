(define (problem bombs-p3)
  (:domain bombs)
  (:objects p1 p2 p3 p4 p5 p6 p7 p8 p9 p10 p11 p12 p13 p14 p15 p16 p17 p18 p19 p20 p21 p22 p23 p24 p25 p26 p27 p28 p29 p30 - package)
  (:init
    (oneof (armed p1) (armed p2) (armed p3) (armed p4) (armed p5) (armed p6) (armed p7) (armed p8) (armed p9) (armed p10) (armed p11) (armed p12) (armed p13) (armed p14) (armed p15) (armed p16) (armed p17) (armed p18) (armed p19) (armed p20) (armed p21) (armed p22) (armed p23) (armed p24) (armed p25) (armed p26) (armed p27) (armed p28) (armed p29) (armed p30))
  )
  (:goal (safe)))
