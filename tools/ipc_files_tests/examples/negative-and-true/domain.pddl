(define (domain switches)
  (:predicates (on ?s))
  (:action flip :parameters (?s) :precondition (not (on ?s)) :effect (on ?s)))
