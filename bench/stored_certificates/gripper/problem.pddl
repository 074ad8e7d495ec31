; Four balls are to be carried to the other room.
(define (problem four-balls)
  (:domain gripper)
  (:objects room-a room-b ball-1 ball-2 ball-3 ball-4 left right)
  (:init
    (room room-a) (room room-b)
    (ball ball-1) (ball ball-2) (ball ball-3) (ball ball-4)
    (gripper left) (gripper right)
    (at-robot room-a) (free left) (free right)
    (at ball-1 room-a) (at ball-2 room-a) (at ball-3 room-a) (at ball-4 room-a))
  (:goal (and (at ball-1 room-b) (at ball-2 room-b) (at ball-3 room-b) (at ball-4 room-b))))
