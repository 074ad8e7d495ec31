(define (problem 01.5) (:domain rooms.2) (:objects 1 2 r.3 - room#1 _me r-3 - _room)
  (:init (2nd-floor 2) (= (length.of 1) 5) (= (length.of r.3) 2))
  (:goal (and (visited-by r.3) (visited-by 1) (assign r.3) (visited.by r.3 r-3)))
  (:metric minimize (total-cost)))
