(define (problem one-package) (:domain deliveries) (:objects t - truck x - package d - depot s - shop)
  (:init (at t s) (at x d)) (:goal (at x s)))
