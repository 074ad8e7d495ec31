; Vehicles bring packages from place to place. A drive costs the length of its road, and to load or to unload costs 1.
(define (domain transport)
  (:requirements :typing :action-costs)
  (:types location vehicle package capacity-number - object)
  (:predicates
    (road ?from ?to - location)
    (at ?thing - (either vehicle package) ?place - location)
    (in ?package - package ?vehicle - vehicle)
    (capacity ?vehicle - vehicle ?free - capacity-number)
    (capacity-predecessor ?less ?more - capacity-number))
  (:functions
    (road-length ?from ?to - location) - number
    (total-cost) - number)

  (:action drive
    :parameters (?vehicle - vehicle ?from ?to - location)
    :precondition (and (at ?vehicle ?from) (road ?from ?to))
    :effect (and (not (at ?vehicle ?from)) (at ?vehicle ?to)
                 (increase (total-cost) (road-length ?from ?to))))

  (:action pick-up
    :parameters (?vehicle - vehicle ?place - location ?package - package ?less ?more - capacity-number)
    :precondition (and (at ?vehicle ?place) (at ?package ?place)
                       (capacity ?vehicle ?more) (capacity-predecessor ?less ?more))
    :effect (and (not (at ?package ?place)) (in ?package ?vehicle)
                 (not (capacity ?vehicle ?more)) (capacity ?vehicle ?less)
                 (increase (total-cost) 1)))

  (:action drop
    :parameters (?vehicle - vehicle ?place - location ?package - package ?less ?more - capacity-number)
    :precondition (and (at ?vehicle ?place) (in ?package ?vehicle)
                       (capacity ?vehicle ?less) (capacity-predecessor ?less ?more))
    :effect (and (not (in ?package ?vehicle)) (at ?package ?place)
                 (not (capacity ?vehicle ?less)) (capacity ?vehicle ?more)
                 (increase (total-cost) 1))))
