; All things but the cheque are to be at the office, and the cheque is not to be left in the case. It has to be taken out,
; the dictionary put in, the case carried and the dictionary taken out: four steps, in this order alone.
(define (problem to-work)
  (:domain briefcase)
  (:objects dictionary pen - thing home office - place)
  (:init
    (case-at home) (in cheque)
    (at dictionary home) (at pen office))
  (:goal (and (forall (?thing - thing)
                (imply (not (= ?thing cheque)) (at ?thing office)))
              (not (in cheque)))))
