(define (problem two-lamps) (:domain lamps) (:objects r - room l1 l2 - lamp)
  (:init (in l1 r) (in l2 r)) (:goal (and (forall (?l - lamp) (on ?l)) (seen r) (seen l1))))
