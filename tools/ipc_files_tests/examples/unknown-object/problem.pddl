(define (problem typo-1) (:domain typo) (:objects here) (:init) (:goal (p hre)))
