; A precondition that is missing is `(and)` in the language too.
(define (domain engine)
  (:predicates (on))
  (:action start :parameters () :effect (on)))
