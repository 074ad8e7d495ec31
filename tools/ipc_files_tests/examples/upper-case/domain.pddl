; Upper case stays as it is, and comes back in the plan.
(DEFINE (DOMAIN Ferry)
  (:REQUIREMENTS :STRIPS)
  (:PREDICATES (At ?X ?Y))
  (:ACTION Sail :PARAMETERS (?X ?From ?To) :PRECONDITION (AND (at ?x ?from)) :EFFECT (AND (NOT (at ?x ?from)) (AT ?X ?to))))
