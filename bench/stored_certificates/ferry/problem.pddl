; All cars are to stand on one shore, whichever it is. To bring the two to the one takes seven steps, and to fetch the one
; takes four: the ferry sails to it, takes it aboard, sails back and lets it off.
(define (problem three-cars)
  (:domain ferry)
  (:objects red blue green - car left right - shore)
  (:init
    (at red left) (at blue left) (at green right)
    (ferry-at left))
  (:goal (or (forall (?car - car) (at ?car right))
             (forall (?car - car) (at ?car left)))))
