(define (problem a-door) (:domain doors) (:init) (:goal (open)))
