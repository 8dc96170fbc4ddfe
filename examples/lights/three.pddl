; Three lamps, none of which is lit at the start.
(define (problem three)
  (:domain lights)
  (:objects hall porch cellar)
  (:init)
  (:goal (and (lit hall) (lit porch) (lit cellar))))
