(define (problem two-tolls) (:domain tolls) (:objects a b c)
  (:init (= (total-cost) 0) (at a) (road a b) (road b c) (= (toll a b) 2.25) (= (toll b c) 4.1))
  (:goal (at c)) (:metric minimize (total-cost)))
