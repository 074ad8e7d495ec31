; Bob goes up to the second floor, the piano from the first to the second, and Ann comes down from there. Four stops at 1,
; twice up at 3 and twice down at 1 cost 12. Nothing costs less: Bob and Ann need two stops at the ground floor, or he comes
; aboard at the one where she leaves, and then the elevator goes up four times. And nothing else costs 12: the piano is taken
; on the way up, with Bob beside it. Without the metric seven steps will do, with the express down to the ground floor.
(define (problem piano)
  (:domain elevator)
  (:objects ann bob - person piano - crate first second - floor)
  (:init
    (= (total-cost) 0)
    (next ground first) (next first second) (lift-at ground)
    (waits ann second) (bound-for ann ground)
    (waits bob ground) (bound-for bob second)
    (waits piano first) (bound-for piano second))
  (:goal (not (exists (?rider - (either person crate))
                (or (aboard ?rider)
                    (exists (?floor - floor) (waits ?rider ?floor))))))
  (:metric minimize (total-cost)))
