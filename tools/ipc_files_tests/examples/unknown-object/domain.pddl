(define (domain typo)
  (:predicates (p ?x))
  (:action go :parameters (?x) :effect (p ?x)))
