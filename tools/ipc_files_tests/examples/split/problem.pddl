(define (problem few) (:domain many) (:objects x y - a z w - b)
  (:init (p x) (q x z) (= (price x z) 7) (= (price x w) 5) (= (price y w) 1)) (:goal (and (p x) (p y) (q x w) (s z) (not (q x z))))
  (:metric minimize (total-cost)))
