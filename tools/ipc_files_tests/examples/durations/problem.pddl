(define (problem timed-1) (:domain timed) (:init) (:goal (p)) (:metric minimize (total-time)))
