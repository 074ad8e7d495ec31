; The crate and the letter are to go to the farm. By the inn the cart drives 9 to the town, and the truck takes both from there:
; 18 in nine steps. Nothing costs less: the crate's shortest way is 12, and to load and unload both packages costs 4. Any
; further drive costs 3 at least, and without one a single vehicle goes from the town to the farm, with both. That is the
; truck, as the cart has room for one; so the crate is unloaded and loaded once more. With the fewest steps, seven, the crate
; goes on the long road from the port to the town, and that costs 22 at least.
(define (problem two-packages)
  (:domain transport)
  (:objects
    port inn town farm - location
    cart truck - vehicle
    crate letter - package
    zero one two - capacity-number)
  (:init
    (= (total-cost) 0)
    (capacity-predecessor zero one) (capacity-predecessor one two)
    (road port town) (= (road-length port town) 12)
    (road town port) (= (road-length town port) 12)
    (road port inn) (= (road-length port inn) 4)
    (road inn port) (= (road-length inn port) 4)
    (road inn town) (= (road-length inn town) 5)
    (road town inn) (= (road-length town inn) 5)
    (road town farm) (= (road-length town farm) 3)
    (road farm town) (= (road-length farm town) 3)
    (at cart port) (capacity cart one)
    (at truck town) (capacity truck two)
    (at crate port) (at letter town))
  (:goal (and (at crate farm) (at letter farm)))
  (:metric minimize (total-cost)))
