(define (domain boats)
  (:types boat house - object
          houseboat - boat
          houseboat - house)
  (:predicates (at ?b - boat) (home ?h - house))
  (:action go :parameters (?b - boat) :effect (at ?b)))
