; A package goes from one city to the other.
(define (problem abroad)
  (:domain logistics)
  (:objects p1 t1 t2 plane apt1 apt2 pos1 pos2 cit1 cit2)
  (:init (obj p1) (truck t1) (truck t2) (airplane plane) (city cit1) (city cit2) (location apt1) (location apt2) (location pos1)
         (location pos2) (airport apt1) (airport apt2) (in-city apt1 cit1) (in-city pos1 cit1) (in-city apt2 cit2) (in-city pos2 cit2)
         (at p1 pos1) (at t1 apt1) (at t2 apt2) (at plane apt1))
  (:goal (and (at p1 pos2))))
