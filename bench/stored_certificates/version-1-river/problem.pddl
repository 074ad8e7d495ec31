; The old puzzle of the wolf, the goat and the cabbage: seven crossings.
(define (problem all-across)
  (:domain river)
  (:objects wolf goat cabbage - passenger left right - bank)
  (:init
    (eats wolf goat) (eats goat cabbage)
    (boat-at left) (at wolf left) (at goat left) (at cabbage left))
  (:goal (forall (?passenger - passenger) (at ?passenger right))))
