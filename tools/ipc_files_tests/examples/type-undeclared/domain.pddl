; `locatable` and `place` are parents, and declared nowhere.
(define (domain deliveries)
  (:types truck package - locatable depot shop - place)
  (:predicates (at ?x - locatable ?p - place) (in ?p - package ?t - truck))
  (:action drive :parameters (?t - truck ?p ?q - place) :precondition (at ?t ?p) :effect (and (not (at ?t ?p)) (at ?t ?q)))
  (:action load :parameters (?x - package ?t - truck ?p - place) :precondition (and (at ?x ?p) (at ?t ?p))
    :effect (and (not (at ?x ?p)) (in ?x ?t)))
  (:action unload :parameters (?x - package ?t - truck ?p - place) :precondition (and (in ?x ?t) (at ?t ?p))
    :effect (and (at ?x ?p) (not (in ?x ?t)))))
