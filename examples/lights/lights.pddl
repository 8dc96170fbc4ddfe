; Lamps that are lit one by one. Lighting a lamp asks for nothing.
(define (domain lights)
  (:predicates (lit ?lamp))
  (:action light :parameters (?lamp) :precondition () :effect (lit ?lamp)))
