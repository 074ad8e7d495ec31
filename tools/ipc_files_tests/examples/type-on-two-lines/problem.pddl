(define (problem one-boat) (:domain boats) (:objects h - houseboat) (:init) (:goal (at h)))
