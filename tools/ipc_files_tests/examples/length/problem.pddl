(define (problem two-steps) (:domain steps) (:objects a b c)
  (:init (at a) (next a b) (next b c)) (:goal (at c))
  ; What a planner is advised of.
  (:length (:serial 2) (:parallel 1)))
