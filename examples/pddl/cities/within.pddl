; A package goes to the airport of its city.
(define (problem within)
  (:domain logistics)
  (:objects p1 t1 apt1 pos1 cit1)
  (:init (obj p1) (truck t1) (city cit1) (location apt1) (location pos1) (airport apt1) (in-city apt1 cit1) (in-city pos1 cit1)
         (at p1 pos1) (at t1 apt1))
  (:goal (and (at p1 apt1))))
