(define (problem Align)
(:domain Mining)
(:init
(tracePointer ev1)
(token start)
(= (total-cost) 0)
)
(:goal
(and
(not (token start))
(not (token p_1))
(not (token p_2))
(token end)
(tracePointer evEND)
))
(:metric minimize (total-cost))
)
