(define (problem FERRY-1) (:domain FERRY) (:objects Boat Here There) (:init (AT boat here)) (:goal (at BOAT there)))
