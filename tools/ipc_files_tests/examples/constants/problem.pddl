(define (problem one-robot) (:domain robots) (:objects lab hall - place robot - machine base - charger hall - place)
  (:init (at robot hall)) (:goal (clean lab)))
