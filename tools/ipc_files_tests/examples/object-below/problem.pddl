(define (problem things-1) (:domain things) (:init) (:goal (p)))
