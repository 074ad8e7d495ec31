; Blocks on a table, and a hand that holds one block at a time. Any number of blocks may stand on the table, and one
; block on another.
(define (domain blocks)
  (:requirements :strips)
  (:predicates
    (on ?above ?below)   ; a block stands on a block
    (on-table ?block)
    (clear ?block)       ; nothing stands on it
    (holding ?block)
    (hand-empty))

  ; takes a block from the table
  (:action pick-up
    :parameters (?block)
    :precondition (and (clear ?block) (on-table ?block) (hand-empty))
    :effect (and (holding ?block)
                 (not (clear ?block)) (not (on-table ?block)) (not (hand-empty))))

  ; puts the block in the hand on the table
  (:action put-down
    :parameters (?block)
    :precondition (holding ?block)
    :effect (and (clear ?block) (on-table ?block) (hand-empty)
                 (not (holding ?block))))

  ; puts the block in the hand on another
  (:action stack
    :parameters (?above ?below)
    :precondition (and (holding ?above) (clear ?below))
    :effect (and (on ?above ?below) (clear ?above) (hand-empty)
                 (not (holding ?above)) (not (clear ?below))))

  ; takes a block from another
  (:action unstack
    :parameters (?above ?below)
    :precondition (and (on ?above ?below) (clear ?above) (hand-empty))
    :effect (and (holding ?above) (clear ?below)
                 (not (on ?above ?below)) (not (clear ?above)) (not (hand-empty)))))
