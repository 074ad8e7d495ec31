(define (domain tolls)
  (:predicates (p) (q))
  (:functions (total-cost) - number)
  (:action pay :parameters () :effect (and (p) (when (q) (increase (total-cost) 3)))))
