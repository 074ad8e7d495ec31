(define (domain towers)
  (:predicates (on ?x ?y) (clear ?x))
  (:derived (clear ?x) (not (exists (?y) (on ?y ?x))))
  (:action put :parameters (?x ?y) :precondition (clear ?y) :effect (and (on ?x ?y) (not (clear ?y)))))
