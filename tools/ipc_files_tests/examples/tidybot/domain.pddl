; Tidybot: `object` stands among the declared types.
(define (domain TIDYBOT)
  (:requirements :strips :typing :equality)
  (:types robot cart object xc yc xrel yrel)
  (:predicates
    (parked ?x - xc ?y - yc)
    (base-pos ?r - robot ?x - xc ?y - yc)
    (base-obstacle ?x - xc ?y - yc)
    (object-pos ?o - object ?x - xc ?y - yc)
    (object-goal ?o - object ?x - xc ?y - yc)
    (gripper-empty ?r - robot)
    (holding ?r - robot ?o - object)
    (object-done ?o - object)
    (leftof ?x1 ?x2 - xc)
    (above ?y1 ?y2 - yc)
    (surface ?x - xc ?y - yc))

  (:action base-left
    :parameters (?r - robot ?cx ?dx - xc ?y - yc)
    :precondition (and (base-pos ?r ?cx ?y) (leftof ?dx ?cx) (not (base-obstacle ?dx ?y)))
    :effect (and (not (base-pos ?r ?cx ?y)) (base-pos ?r ?dx ?y)
                 (not (base-obstacle ?cx ?y)) (base-obstacle ?dx ?y)))
  (:action base-right
    :parameters (?r - robot ?cx ?dx - xc ?y - yc)
    :precondition (and (base-pos ?r ?cx ?y) (leftof ?cx ?dx) (not (base-obstacle ?dx ?y)))
    :effect (and (not (base-pos ?r ?cx ?y)) (base-pos ?r ?dx ?y)
                 (not (base-obstacle ?cx ?y)) (base-obstacle ?dx ?y)))
  (:action grasp-left
    :parameters (?r - robot ?x ?gx - xc ?y - yc ?o - object)
    :precondition (and (base-pos ?r ?x ?y) (leftof ?gx ?x) (object-pos ?o ?gx ?y) (gripper-empty ?r))
    :effect (and (not (object-pos ?o ?gx ?y)) (not (gripper-empty ?r)) (holding ?r ?o)))
  (:action put-right
    :parameters (?r - robot ?x ?gx - xc ?y - yc ?o - object)
    :precondition (and (base-pos ?r ?x ?y) (leftof ?x ?gx) (holding ?r ?o) (surface ?gx ?y))
    :effect (and (not (holding ?r ?o)) (gripper-empty ?r) (object-pos ?o ?gx ?y)))
  (:action finish-object
    :parameters (?o - object ?x - xc ?y - yc)
    :precondition (and (object-pos ?o ?x ?y) (object-goal ?o ?x ?y))
    :effect (and (not (object-pos ?o ?x ?y)) (object-done ?o))))
