; A boat takes its rower and one passenger across a river. Of the passengers that are left alone on a bank none may eat
; another.
(define (domain river)
  (:requirements :adl)
  (:types passenger bank)
  (:predicates
    (at ?passenger - passenger ?bank - bank)
    (boat-at ?bank - bank)
    (eats ?eater ?food - passenger))

  ; crosses alone
  (:action row
    :parameters (?from ?to - bank)
    :precondition (and (boat-at ?from) (not (= ?from ?to))
                       (forall (?eater ?food - passenger)
                         (imply (eats ?eater ?food)
                                (not (and (at ?eater ?from) (at ?food ?from))))))
    :effect (and (boat-at ?to) (not (boat-at ?from))))

  ; crosses with a passenger
  (:action take
    :parameters (?one - passenger ?from ?to - bank)
    :precondition (and (boat-at ?from) (at ?one ?from) (not (= ?from ?to))
                       (forall (?eater ?food - passenger)
                         (imply (and (eats ?eater ?food) (at ?eater ?from) (at ?food ?from))
                                (or (= ?eater ?one) (= ?food ?one)))))
    :effect (and (boat-at ?to) (not (boat-at ?from))
                 (at ?one ?to) (not (at ?one ?from)))))
