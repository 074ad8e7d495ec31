; Packages go by truck within a city, and by airplane from airport to airport.
(define (domain logistics)
 (:requirements :strips :typing)
 (:types truck airplane - vehicle
         vehicle package - movable
         airport office - place
         movable place city - object)
 (:predicates
  (at ?m - movable ?p - place)
  (in ?k - package ?v - vehicle)
  (belongs ?p - place ?c - city))
 (:action load
  :parameters (?k - package ?v - vehicle ?p - place)
  :precondition (and (at ?k ?p) (at ?v ?p))
  :effect (and (not (at ?k ?p)) (in ?k ?v)))
 (:action unload
  :parameters (?k - package ?v - vehicle ?p - place)
  :precondition (and (in ?k ?v) (at ?v ?p))
  :effect (and (not (in ?k ?v)) (at ?k ?p)))
 (:action drive
  :parameters (?t - truck ?from ?to - place ?c - city)
  :precondition (and (at ?t ?from) (belongs ?from ?c) (belongs ?to ?c))
  :effect (and (not (at ?t ?from)) (at ?t ?to)))
 (:action fly
  :parameters (?a - airplane ?from ?to - airport)
  :precondition (at ?a ?from)
  :effect (and (not (at ?a ?from)) (at ?a ?to))))
