; Neither action has parameters, and the first one has no precondition.
(define (domain engine)
  (:predicates (on) (warm))
  (:action start :effect (on))
  (:action wait :precondition (on) :effect (warm)))
