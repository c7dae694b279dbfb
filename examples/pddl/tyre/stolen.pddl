; A negative goal.
(define (problem stolen)
  (:domain spare-tyre)
  (:init (at flat axle) (at spare trunk))
  (:goal (and (not (at flat axle)) (not (at spare trunk)))))
