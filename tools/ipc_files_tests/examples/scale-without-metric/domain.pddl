; Without a metric each action costs 1, whatever it increases: the plan's cost is not divided.
(define (domain tolls)
  (:predicates (at ?x))
  (:functions (total-cost) - number)
  (:action fly :parameters (?x ?y) :precondition (at ?x) :effect (and (not (at ?x)) (at ?y) (increase (total-cost) 7.5))))
