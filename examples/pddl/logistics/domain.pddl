; One truck carries packages along roads: the logistics domain (Veloso 1992) without its aeroplanes and cities.
(define (domain logistics)
  (:requirements :strips :typing)
  (:types location thing - object package truck - thing)
  (:predicates (at ?x - thing ?l - location) (in ?p - package ?t - truck) (road ?l - location ?m - location))
  (:action load
    :parameters (?p - package ?t - truck ?l - location)
    :precondition (and (at ?p ?l) (at ?t ?l))
    :effect (and (in ?p ?t) (not (at ?p ?l))))
  (:action unload
    :parameters (?p - package ?t - truck ?l - location)
    :precondition (and (in ?p ?t) (at ?t ?l))
    :effect (and (at ?p ?l) (not (in ?p ?t))))
  (:action drive
    :parameters (?t - truck ?l - location ?m - location)
    :precondition (and (at ?t ?l) (road ?l ?m))
    :effect (and (at ?t ?m) (not (at ?t ?l)))))
