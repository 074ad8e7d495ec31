; Organic synthesis: a reaction has a parameter for each atom that takes part in it, which are more than 16.
(define (domain Chemical)
(:requirements :strips :typing :equality)
(:types chemical_atom - object
        hydrogen carbon halogen oxygen aluminium - chemical_atom)
(:predicates (bond ?x - chemical_atom ?y - chemical_atom)
             (doublebond ?x - chemical_atom ?y - chemical_atom))

(:action hydrationOfAlkene
 :parameters (?c1 ?c2 - carbon ?r1 ?r2 ?r3 ?r4 - chemical_atom
              ?al - aluminium ?x1 ?x2 ?x3 - halogen
              ?o1 - oxygen ?h1 ?h2 - hydrogen ?o2 - oxygen ?h3 ?h4 - hydrogen ?o3 - oxygen ?h5 ?h6 - hydrogen)
 :precondition (and (doublebond ?c1 ?c2)
                    (bond ?c1 ?r1) (bond ?c1 ?r2) (not (= ?r1 ?r2))
                    (bond ?c2 ?r3) (bond ?c2 ?r4) (not (= ?r3 ?r4))
                    (bond ?al ?x1) (bond ?al ?x2) (bond ?al ?x3)
                    (not (= ?x1 ?x2)) (not (= ?x1 ?x3)) (not (= ?x2 ?x3))
                    (bond ?o1 ?h1) (bond ?o1 ?h2) (not (= ?h1 ?h2))
                    (bond ?o2 ?h3) (bond ?o2 ?h4) (not (= ?h3 ?h4))
                    (bond ?o3 ?h5) (bond ?o3 ?h6) (not (= ?h5 ?h6))
                    (not (= ?o1 ?o2)) (not (= ?o1 ?o3)) (not (= ?o2 ?o3)))
 :effect (and (not (doublebond ?c1 ?c2)) (not (doublebond ?c2 ?c1))
              (not (bond ?o1 ?h1)) (not (bond ?h1 ?o1))
              (bond ?c1 ?c2) (bond ?c2 ?c1)
              (bond ?c1 ?o1) (bond ?o1 ?c1) (bond ?c2 ?h1) (bond ?h1 ?c2)))

(:action dehydrogenation
 :parameters (?c1 ?c2 - carbon ?h1 ?h2 - hydrogen)
 :precondition (and (bond ?c1 ?c2) (bond ?c1 ?h1) (bond ?c2 ?h2))
 :effect (and (not (bond ?c1 ?c2)) (not (bond ?c2 ?c1)) (doublebond ?c1 ?c2) (doublebond ?c2 ?c1)
              (not (bond ?c1 ?h1)) (not (bond ?h1 ?c1)) (not (bond ?c2 ?h2)) (not (bond ?h2 ?c2)))))
