; `robot` is declared in both files, `base` in both with a nearer type in the problem, and `lab` is named here and declared there.
(define (domain robots)
  (:types place machine - object charger - place)
  (:constants robot - machine base - place)
  (:predicates (at ?m - machine ?p - place) (full ?m - machine) (clean ?p - place))
  (:action go :parameters (?p ?q - place) :precondition (at robot ?p) :effect (and (not (at robot ?p)) (at robot ?q)))
  (:action charge :parameters (?c - charger) :precondition (at robot ?c) :effect (full robot))
  (:action sweep :parameters () :precondition (and (full robot) (at robot lab)) :effect (clean lab)))
