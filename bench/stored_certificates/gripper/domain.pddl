; A robot with two grippers carries balls from room to room, at most one in each gripper.
(define (domain gripper)
  (:requirements :strips)
  (:predicates
    (room ?room)
    (ball ?ball)
    (gripper ?gripper)
    (at-robot ?room)
    (at ?ball ?room)
    (free ?gripper)             ; nothing is in it
    (carry ?ball ?gripper))

  (:action move
    :parameters (?from ?to)
    :precondition (and (room ?from) (room ?to) (at-robot ?from))
    :effect (and (at-robot ?to)
                 (not (at-robot ?from))))

  (:action pick
    :parameters (?ball ?room ?gripper)
    :precondition (and (ball ?ball) (room ?room) (gripper ?gripper)
                       (at ?ball ?room) (at-robot ?room) (free ?gripper))
    :effect (and (carry ?ball ?gripper)
                 (not (at ?ball ?room)) (not (free ?gripper))))

  (:action drop
    :parameters (?ball ?room ?gripper)
    :precondition (and (ball ?ball) (room ?room) (gripper ?gripper)
                       (carry ?ball ?gripper) (at-robot ?room))
    :effect (and (at ?ball ?room) (free ?gripper)
                 (not (carry ?ball ?gripper)))))
