(define (problem three) (:domain lamps) (:objects a b c - lamp)
 (:init (lit b) (warm b))
 (:goal (exists (?x - lamp) (and (lit ?x) (not (lit ?x))))))
