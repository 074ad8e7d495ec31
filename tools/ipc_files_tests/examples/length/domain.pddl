(define (domain steps)
  (:predicates (at ?x) (next ?x ?y))
  (:action step :parameters (?x ?y) :precondition (and (at ?x) (next ?x ?y)) :effect (and (not (at ?x)) (at ?y))))
