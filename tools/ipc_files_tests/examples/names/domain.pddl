; Names of each kind that the language spells otherwise, some of which would come out alike.
(define (domain rooms.2)
  (:types room#1 _room)
  (:predicates (2nd-floor ?r.x - room#1) (visited.by ?r - room#1 ?who) (visited-by ?r - room#1) (assign ?1))
  (:functions (total-cost) - number (length.of ?r - room#1) - number)
  (:action visit#a :parameters (?1 - room#1 ?_who - _room) :precondition (and (not (2nd-floor ?1)) (exists (?2 - _room) (= ?2 ?_who)))
    :effect (and (visited.by ?1 ?_who) (increase (total-cost) (length.of ?1))))
  (:action visit-a :parameters (?1 - room#1) :precondition (visited.by ?1 _me) :effect (and (visited-by ?1) (assign ?1))))
