(define (problem a-tower) (:domain towers) (:objects a b) (:init) (:goal (on a b)))
