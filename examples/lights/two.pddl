; Two lamps, neither of which is lit at the start.
(define (problem two)
  (:domain lights)
  (:objects hall porch)
  (:init)
  (:goal (and (lit hall) (lit porch))))
