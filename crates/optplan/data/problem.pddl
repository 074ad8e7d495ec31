; One step reaches the goal.
(define (problem g)
  (:domain go)
  (:init (p))
  (:goal (and (p) (q))))
