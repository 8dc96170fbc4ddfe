(define (problem eight-cells) (:domain corridor)
  (:objects c0 c1 c2 c3 c4 c5 c6 c7)
  (:init (at c0) (next c0 c1) (next c1 c2) (next c2 c3) (next c3 c4) (next c4 c5) (next c5 c6) (next c6 c7))
  (:goal (at c7)))
