(define (problem ring-1) (:domain ring) (:init) (:goal (p)))
