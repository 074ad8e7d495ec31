(define (problem few) (:domain many) (:objects x) (:init (p x)) (:goal (q)))
