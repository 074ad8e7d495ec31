(define (problem three-blocks) (:domain towers) (:objects a b - block g - glass t - table)
  (:init (on a b) (on b t) (on g t))
  (:goal (and (idle) (stacked b) (not (stacked a)) (exists (?x - object) (and (fragile ?x) (not (= ?x g)))) (seen g)
              (forall (?y - block) (or (clear ?y) (exists (?x - block) (on ?x ?y)))))))
