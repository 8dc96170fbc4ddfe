(define (problem two-cells) (:domain corridor)
  (:objects c0 c1)
  (:init (at c0) (next c0 c1))
  (:goal (at c1)))
