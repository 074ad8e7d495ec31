(define (problem five) (:domain dovecote) (:objects p q r s t - pigeon h i j k - hole)
 (:init (flies p) (flies q) (flies r) (flies s) (flies t) (empty h) (empty i) (empty j) (empty k))
 (:goal (and (sits p) (sits q) (sits r) (sits s) (sits t))))
