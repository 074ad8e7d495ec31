(define (domain timed)
  (:requirements :durative-actions)
  (:predicates (p))
  (:durative-action go :parameters () :duration (= ?duration 3) :condition () :effect (at end (p))))
