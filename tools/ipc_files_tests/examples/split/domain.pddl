; An action of 18 parameters with a cost by a function, and one whose quantifiers bring 17 variables into scope. An atom is deleted and
; added where two parameters are the same object, and the precondition asks for atoms that the effect changes.
(define (domain many)
  (:types a b)
  (:predicates (p ?x - a) (q ?x - a ?y - b) (r) (s ?x - b))
  (:functions (total-cost) - number (price ?x - a ?y - b) - number)
  (:action all :parameters (?v1 ?v2 ?v3 ?v4 ?v5 ?v6 ?v7 ?v8 ?v9 ?v10 ?v11 ?v12 ?v13 ?v14 ?v15 ?v16 ?v17 ?v18 - a ?w ?w2 - b)
    :precondition (and (p ?v1) (not (p ?v2)) (q ?v18 ?w) (= ?v3 ?v2) (= ?v4 ?v1) (= ?v5 ?v1) (= ?v6 ?v1) (= ?v7 ?v1) (= ?v8 ?v1) (= ?v9 ?v1)
                       (= ?v10 ?v1) (= ?v11 ?v1) (= ?v12 ?v1) (= ?v13 ?v1) (= ?v14 ?v1) (= ?v15 ?v1) (= ?v16 ?v1) (= ?v17 ?v1))
    :effect (and (p ?v2) (not (p ?v1)) (p ?v18) (not (q ?v18 ?w)) (q ?v1 ?w2) (increase (total-cost) (price ?v18 ?w2))))
  (:action wide :parameters (?x - a)
    :precondition (and (p ?x) (exists (?a1 ?a2 ?a3 ?a4 ?a5 ?a6 ?a7 ?a8 - a) (exists (?b1 ?b2 ?b3 ?b4 ?b5 ?b6 ?b7 ?b8 - b) (q ?a1 ?b1))))
    :effect (and (r) (increase (total-cost) 2)))
  (:action set :parameters (?x - b) :precondition (r) :effect (s ?x)))
