(define (problem cold) (:domain engine) (:init) (:goal (on)))
