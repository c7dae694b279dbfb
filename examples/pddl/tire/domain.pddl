; The spare tire (Russell and Norvig, Artificial Intelligence: A Modern Approach), without the night on which thieves come.
; That nothing is on the axle is a predicate of its own, since a precondition is positive.
(define (domain spare-tire)
  (:requirements :strips :typing)
  (:types tire place)
  (:constants ground axle trunk - place)
  (:predicates (at ?t - tire ?p - place) (free-axle))
  (:action remove
    :parameters (?t - tire)
    :precondition (and (at ?t trunk))
    :effect (and (at ?t ground) (not (at ?t trunk))))
  (:action take-off
    :parameters (?t - tire)
    :precondition (and (at ?t axle))
    :effect (and (at ?t ground) (free-axle) (not (at ?t axle))))
  (:action put-on
    :parameters (?t - tire)
    :precondition (and (at ?t ground) (free-axle))
    :effect (and (at ?t axle) (not (at ?t ground)) (not (free-axle)))))
