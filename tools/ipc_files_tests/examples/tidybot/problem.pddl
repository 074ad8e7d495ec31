(define (problem test)
  (:domain TIDYBOT)
  (:objects
    pr2 - robot
    cart - cart
    object1 - object
    x0 x1 x2 x3 x4 - xc
    y0 - yc)
  (:init
    (leftof x0 x1) (leftof x1 x2) (leftof x2 x3) (leftof x3 x4)
    (surface x0 y0) (surface x4 y0)
    (base-obstacle x0 y0) (base-obstacle x4 y0) (base-obstacle x2 y0)
    (base-pos pr2 x2 y0)
    (gripper-empty pr2)
    (object-pos object1 x0 y0)
    (object-goal object1 x4 y0))
  (:goal (and (object-done object1))))
