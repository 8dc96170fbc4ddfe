(define (problem three-cells) (:domain corridor)
  (:objects c0 c1 c2)
  (:init (at c0) (next c0 c1) (next c1 c2))
  (:goal (at c2)))
