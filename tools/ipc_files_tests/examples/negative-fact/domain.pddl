(define (domain switches)
  (:predicates (on ?s) (safe))
  (:action flip :parameters (?s) :precondition (and (not (on ?s)) (not (safe))) :effect (on ?s)))
