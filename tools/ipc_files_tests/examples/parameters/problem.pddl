(define (problem cold) (:domain engine) (:init) (:goal (warm)))
