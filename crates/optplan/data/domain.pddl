; The smallest domain that shows how an effect is read: its action deletes `p` and adds it, and an add wins over a
; delete of the same atom, so `p` is still true afterwards.
(define (domain go)
  (:predicates (p) (q))
  (:action go
    :parameters ()
    :effect (and (not (p)) (p) (q))))
