(define (problem two-doors) (:domain doors) (:requirements :timed-initial-literals)
  (:objects d e - door) (:init (open d)) (:goal (and (open d) (open e))))
