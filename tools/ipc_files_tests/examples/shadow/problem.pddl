(define (problem three-rooms) (:domain rooms) (:objects a b c - room)
  (:init (at a) (door a b) (door b a) (door b c) (door c b) (dark c))
  (:goal (and (at b) (lit a) (lit c) (exists (?x - room) (and (at ?x) (exists (?x - room) (dark ?x)))))))
