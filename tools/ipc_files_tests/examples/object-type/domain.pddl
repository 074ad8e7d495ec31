; `object` is declared three times, in each of the ways that files have it.
(define (domain lamps)
  (:types object room - object object lamp - object object)
  (:predicates (on ?l - lamp) (in ?l - lamp ?r - room) (seen ?o - object))
  (:action switch :parameters (?l - lamp) :precondition (not (on ?l)) :effect (on ?l))
  (:action look :parameters (?o - object) :effect (seen ?o)))
