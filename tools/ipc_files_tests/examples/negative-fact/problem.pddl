(define (problem two-switches) (:domain switches) (:objects s t)
  (:init (not (on s)) (on t) (not (safe)) (on t)) (:goal (and (on s) (on t))))
