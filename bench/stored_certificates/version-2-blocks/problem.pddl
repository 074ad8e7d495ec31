; Four blocks in two towers, to be piled up as one: a on b, b on c, c on d.
(define (problem four-blocks)
  (:domain blocks)
  (:objects a b c d)
  (:init
    ; c stands on a, and b on d
    (on-table a) (on c a) (clear c)
    (on-table d) (on b d) (clear b)
    (hand-empty))
  (:goal (and (on a b) (on b c) (on c d))))
