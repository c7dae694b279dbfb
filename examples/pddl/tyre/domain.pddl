; The spare tyre with negative conditions (Russell and Norvig, Artificial Intelligence: A Modern Approach), with the night on which
; thieves take whatever tyre is outside.
(define (domain spare-tyre)
  (:requirements :strips :typing :negative-preconditions)
  (:types tyre place)
  (:constants flat spare - tyre ground axle trunk - place)
  (:predicates (at ?t - tyre ?p - place))
  (:action remove
    :parameters (?t - tyre ?p - place)
    :precondition (at ?t ?p)
    :effect (and (not (at ?t ?p)) (at ?t ground)))
  (:action put-on
    :parameters (?t - tyre)
    :precondition (and (at ?t ground) (not (at flat axle)) (not (at spare axle)))
    :effect (and (not (at ?t ground)) (at ?t axle)))
  (:action leave-overnight
    :parameters ()
    :precondition ()
    :effect (and (not (at spare ground)) (not (at spare axle)) (not (at spare trunk))
                 (not (at flat ground)) (not (at flat axle)) (not (at flat trunk)))))
