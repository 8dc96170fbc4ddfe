(define (problem garden)
  (:domain places)
  (:objects bed pond - cell ann - person)
  (:goal (seen bed)))
