; Power supply restoration, with lines that are fed by one device each, so that no derived predicate depends on itself.
(define (domain psr)
(:requirements :adl :derived-predicates)
(:types DEVICE LINE)
(:predicates (feeds ?x - DEVICE ?l - LINE) (closed ?x - DEVICE) (breaker ?x - DEVICE) (faulty ?l - LINE)
             (fed ?l - LINE) (affected ?x - DEVICE) (unsafe))

(:derived (fed ?l - LINE)
  (exists (?x - DEVICE) (and (feeds ?x ?l) (closed ?x))))

(:derived (affected ?x - DEVICE)
  (and (breaker ?x) (exists (?l - LINE) (and (feeds ?x ?l) (faulty ?l) (fed ?l)))))

(:derived (unsafe)
  (exists (?x - DEVICE) (affected ?x)))

(:action open
 :parameters (?x - DEVICE)
 :precondition (and (closed ?x) (not (unsafe)))
 :effect (not (closed ?x)))
(:action close
 :parameters (?x - DEVICE)
 :precondition (and (not (closed ?x)) (not (unsafe)))
 :effect (closed ?x))
(:action wait
 :parameters ()
 :precondition (unsafe)
 :effect (forall (?x - DEVICE) (when (affected ?x) (not (closed ?x))))))
