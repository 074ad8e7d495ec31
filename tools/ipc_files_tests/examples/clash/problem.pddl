(define (problem same) (:domain same) (:objects other - same)
  (:init (= (same same) 3) (= (same other) 4)) (:goal (and (same same) (same other))) (:metric minimize (total-cost)))
