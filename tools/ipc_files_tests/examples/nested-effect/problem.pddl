(define (problem two-wires) (:domain wires) (:objects w v - wire l m - lamp)
  (:init (main) (ties w l) (ties v m) (lit m)) (:goal (and (lit l) (burnt m) (not (lit m)) (seen w) (seen v) (hot v)))
  (:metric minimize (total-cost)))
