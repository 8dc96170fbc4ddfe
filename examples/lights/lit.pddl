; The lamp of the goal is lit at the start: the program `end` solves this instance.
(define (problem lit)
  (:domain lights)
  (:objects hall porch)
  (:init (lit porch))
  (:goal (lit porch)))
