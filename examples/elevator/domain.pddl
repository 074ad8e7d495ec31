; An elevator. Where it stops, all that are bound for the floor leave, and all that wait there come aboard. Up is dear, down
; is cheap, and dearest is the express, which goes any way from or to the ground floor and takes no crates.
(define (domain elevator)
  (:requirements :adl :action-costs)
  (:types person crate floor)
  (:constants ground - floor)
  (:predicates
    (next ?low ?high - floor)
    (lift-at ?floor - floor)
    (waits ?rider - (either person crate) ?floor - floor)
    (bound-for ?rider - (either person crate) ?floor - floor)
    (aboard ?rider - (either person crate)))
  (:functions (total-cost) - number)

  (:action stop
    :parameters (?floor - floor)
    :precondition (and (lift-at ?floor)
                       (exists (?rider - (either person crate))
                         (or (waits ?rider ?floor)
                             (and (aboard ?rider) (bound-for ?rider ?floor)))))
    :effect (and (increase (total-cost) 1)
                 (forall (?rider - (either person crate))
                   (and (when (waits ?rider ?floor)
                          (and (aboard ?rider) (not (waits ?rider ?floor))))
                        (when (and (aboard ?rider) (bound-for ?rider ?floor))
                          (not (aboard ?rider)))))))

  ; a crate goes up only with a person beside it
  (:action up
    :parameters (?from ?to - floor)
    :precondition (and (lift-at ?from) (next ?from ?to)
                       (forall (?crate - crate)
                         (imply (aboard ?crate) (exists (?person - person) (aboard ?person)))))
    :effect (and (lift-at ?to) (not (lift-at ?from)) (increase (total-cost) 3)))

  (:action down
    :parameters (?from ?to - floor)
    :precondition (and (lift-at ?from) (next ?to ?from))
    :effect (and (lift-at ?to) (not (lift-at ?from)) (increase (total-cost) 1)))

  (:action express
    :parameters (?from ?to - floor)
    :precondition (and (lift-at ?from) (not (= ?from ?to)) (or (= ?from ground) (= ?to ground))
                       (not (exists (?crate - crate) (aboard ?crate))))
    :effect (and (lift-at ?to) (not (lift-at ?from)) (increase (total-cost) 10))))
