; A truck is a vehicle and a thing, and a van is declared three times.
(define (domain trucks)
  (:types truck - vehicle vehicle - thing truck - thing place
          van - thing van - truck van)
  (:predicates (at ?v - vehicle ?p - place) (loaded ?t - truck) (big ?t - thing))
  (:action drive :parameters (?v - vehicle ?p ?q - place) :precondition (at ?v ?p) :effect (and (not (at ?v ?p)) (at ?v ?q)))
  (:action load :parameters (?t - truck ?p - place) :precondition (at ?t ?p) :effect (loaded ?t)))
