(define (problem one-van) (:domain trucks) (:objects v - van c - vehicle a b - place)
  (:init (at v a) (at c a)) (:goal (and (at v b) (loaded v) (at c b))))
