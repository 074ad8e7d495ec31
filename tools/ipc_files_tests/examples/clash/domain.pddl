; A type, a predicate, a function, an action, a variable and an object of one name: name spaces are separate in the language.
(define (domain same)
  (:requirements :typing :action-costs)
  (:types same)
  (:constants same - same)
  (:predicates (same ?same - same))
  (:functions (total-cost) - number (same ?same - same) - number)
  (:action same :parameters (?same - same) :effect (and (same ?same) (increase (total-cost) (same ?same)))))
