; One lamp, which is not lit at the start.
(define (problem unlit)
  (:domain lights)
  (:objects porch)
  (:init)
  (:goal (lit porch)))
