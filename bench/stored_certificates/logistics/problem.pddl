; A package goes from an office in one city to an office in another. It has to be loaded and unloaded three times, and
; three vehicles have to move with it: nine steps, and there is no shorter way.
(define (problem over-the-sea)
 (:domain logistics)
 (:objects
  here there - city
  office-1 office-2 - office
  airport-1 airport-2 - airport
  truck-1 truck-2 - truck
  plane - airplane
  letter - package)
 (:init
  (belongs office-1 here) (belongs airport-1 here)
  (belongs office-2 there) (belongs airport-2 there)
  (at truck-1 office-1) (at truck-2 airport-2) (at plane airport-1)
  (at letter office-1))
 (:goal (at letter office-2)))
