; Quantified variables have the names of parameters, and of each other.
(define (domain rooms)
  (:types room)
  (:predicates (door ?x ?y - room) (at ?x - room) (lit ?x - room) (dark ?x - room))
  (:action go :parameters (?x ?y - room)
    :precondition (and (at ?x) (door ?x ?y) (exists (?x - room) (and (door ?y ?x) (forall (?x - room) (imply (dark ?x) (door ?x ?y))))))
    :effect (and (not (at ?x)) (at ?y) (forall (?x - room) (when (and (door ?x ?y) (exists (?y - room) (dark ?y))) (lit ?x))))))
