(define (problem fix)
  (:domain spare-tyre)
  (:init (at flat axle) (at spare trunk))
  (:goal (and (at spare axle))))
