(define (problem one-robot) (:domain robots)
  (:objects robot - place) (:init) (:goal (at robot)))
