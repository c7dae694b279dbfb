; The package is driven, and both the truck and the driver come to given places.
(define (problem way-home)
  (:domain driverlog)
  (:objects driver1 - driver truck1 - truck package1 - obj s0 s1 p0-1 - location)
  (:init (at driver1 s1) (at truck1 s0) (empty truck1) (at package1 s0) (path s0 p0-1) (path p0-1 s0) (path s1 p0-1) (path p0-1 s1)
         (link s0 s1) (link s1 s0))
  (:goal (and (at package1 s1) (at truck1 s0) (at driver1 s0))))
