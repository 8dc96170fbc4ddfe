; Types: a cell is a place, and a scout looks at places alone.
(define (domain places)
  (:requirements :strips :typing)
  (:types cell - place person)
  (:constants gate - place)
  (:predicates (seen ?p - place))
  (:action look
    :parameters (?p - place)
    :effect (seen ?p)))
