; The costs have one and two decimals: all are multiplied by 20, the least number that makes them whole.
(define (domain tolls)
  (:predicates (at ?x) (road ?x ?y))
  (:functions (total-cost) - number (toll ?x ?y) - number)
  (:action drive :parameters (?x ?y) :precondition (and (at ?x) (road ?x ?y))
    :effect (and (not (at ?x)) (at ?y) (increase (total-cost) (toll ?x ?y))))
  (:action fly :parameters (?x ?y) :precondition (at ?x) :effect (and (not (at ?x)) (at ?y) (increase (total-cost) 7.5)))
  (:action walk :parameters (?x ?y) :precondition (and (at ?x) (road ?y ?x)) :effect (and (not (at ?x)) (at ?y) (increase (total-cost) 1))))
