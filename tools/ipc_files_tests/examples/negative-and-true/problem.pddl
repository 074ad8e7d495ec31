(define (problem a-switch) (:domain switches) (:objects s)
  (:init (not (on s)) (on s)) (:goal (on s)))
