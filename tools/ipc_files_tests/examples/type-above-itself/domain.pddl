(define (domain ring)
  (:types a - b b - c c - a a - c)
  (:predicates (p))
  (:action go :parameters () :effect (p)))
