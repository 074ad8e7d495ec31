(define (problem a-toll) (:domain tolls) (:init) (:goal (p)) (:metric minimize (total-cost)))
