; A ferry that takes one car. It sails with a car aboard, or to where one waits.
(define (domain ferry)
  (:requirements :adl)
  (:types car shore)
  (:predicates
    (at ?car - car ?shore - shore)
    (aboard ?car - car)
    (ferry-at ?shore - shore))

  (:action board
    :parameters (?car - car ?shore - shore)
    :precondition (and (at ?car ?shore) (ferry-at ?shore)
                       (not (exists (?other - car) (aboard ?other))))
    :effect (and (aboard ?car) (not (at ?car ?shore))))

  (:action debark
    :parameters (?car - car ?shore - shore)
    :precondition (and (aboard ?car) (ferry-at ?shore))
    :effect (and (at ?car ?shore) (not (aboard ?car))))

  (:action sail
    :parameters (?from ?to - shore)
    :precondition (and (ferry-at ?from) (not (= ?from ?to))
                       (exists (?car - car) (or (aboard ?car) (at ?car ?to))))
    :effect (and (ferry-at ?to) (not (ferry-at ?from)))))
