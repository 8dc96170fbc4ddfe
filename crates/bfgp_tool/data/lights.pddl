(define (domain lights) (:predicates (lit ?x)))
