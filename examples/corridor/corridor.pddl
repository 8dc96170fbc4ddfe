; A walker stands at one of the cells in a row, and moves from a cell to the next.
(define (domain corridor)
  (:predicates (at ?c) (next ?x ?y))
  (:action move :parameters (?x ?y)
    :precondition (and (at ?x) (next ?x ?y))
    :effect (and (not (at ?x)) (at ?y))))
