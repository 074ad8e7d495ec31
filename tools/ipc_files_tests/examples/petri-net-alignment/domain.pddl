; Petri net alignment: a domain for each task, whose actions are called by a move, a transition and an event.
(define (domain Mining)
(:requirements :typing :equality :action-costs)
(:types place event)
(:constants
start end p_1 p_2 - place
ev1 ev2 evEND - event
)
(:predicates
(token ?p - place)
(tracePointer ?e - event)
)
(:functions
(total-cost)
)
(:action moveSync#a#ev1-ev2
:parameters ()
:precondition (and (token start) (tracePointer ev1))
:effect (and (not (token start)) (token p_1) (not (tracePointer ev1)) (tracePointer ev2))
)
(:action moveInTheModel#tau.1
:precondition (token p_1)
:effect (and (not (token p_1)) (token p_2) (increase (total-cost) 0))
)
(:action moveInTheModel#b
:parameters ()
:precondition (token p_2)
:effect (and (not (token p_2)) (token end) (increase (total-cost) 1))
)
(:action moveInTheLog#c#ev2-evEND
:parameters ()
:precondition (and (tracePointer ev2))
:effect (and (not (tracePointer ev2)) (tracePointer evEND) (increase (total-cost) 1))
)
)
