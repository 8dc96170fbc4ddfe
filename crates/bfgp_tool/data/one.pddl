(define (problem one) (:domain lights) (:objects a) (:init (lit a)) (:goal (lit a)))
