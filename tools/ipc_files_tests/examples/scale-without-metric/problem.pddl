(define (problem a-flight) (:domain tolls) (:objects a b) (:init (at a)) (:goal (at b)))
