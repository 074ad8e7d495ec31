(define (problem a-tower) (:domain towers) (:objects a b)
  (:init) (:goal (above a b)))
