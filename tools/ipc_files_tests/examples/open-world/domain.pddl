(define (domain doors)
  (:requirements :strips :open-world)
  (:predicates (open))
  (:action push :parameters () :precondition (not (open)) :effect (open)))
