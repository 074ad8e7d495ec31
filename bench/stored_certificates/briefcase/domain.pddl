; A briefcase that holds one thing is carried from place to place.
(define (domain briefcase)
  (:requirements :adl)
  (:types thing place)
  (:constants cheque - thing)
  (:predicates
    (at ?thing - thing ?place - place)
    (in ?thing - thing)            ; it is in the case
    (case-at ?place - place))

  (:action put-in
    :parameters (?thing - thing ?place - place)
    :precondition (and (at ?thing ?place) (case-at ?place)
                       (forall (?other - thing) (not (in ?other))))
    :effect (and (in ?thing) (not (at ?thing ?place))))

  (:action take-out
    :parameters (?thing - thing ?place - place)
    :precondition (and (in ?thing) (case-at ?place))
    :effect (and (at ?thing ?place) (not (in ?thing))))

  (:action carry
    :parameters (?from ?to - place)
    :precondition (and (case-at ?from) (not (= ?from ?to)))
    :effect (and (case-at ?to) (not (case-at ?from)))))
