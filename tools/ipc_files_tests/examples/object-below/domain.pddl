(define (domain things)
  (:types thing object - thing)
  (:predicates (p))
  (:action go :parameters () :effect (p)))
