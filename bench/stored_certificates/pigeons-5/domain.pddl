(define (domain dovecote) (:requirements :typing) (:types pigeon hole)
 (:predicates (flies ?p - pigeon) (empty ?h - hole) (sits ?p - pigeon))
 (:action sit :parameters (?p - pigeon ?h - hole) :precondition (and (flies ?p) (empty ?h))
  :effect (and (not (flies ?p)) (not (empty ?h)) (sits ?p))))
