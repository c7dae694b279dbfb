; The briefcase (Pednault 1988) in a STRIPS form. There what is in the briefcase moves with it; here a thing that is in it
; is nowhere else until it is taken out.
(define (domain briefcase)
  (:requirements :strips :typing)
  (:types place thing)
  (:predicates (case-at ?p - place) (at ?x - thing ?p - place) (in ?x - thing))
  (:action carry
    :parameters (?from - place ?to - place)
    :precondition (and (case-at ?from))
    :effect (and (case-at ?to) (not (case-at ?from))))
  (:action put-in
    :parameters (?x - thing ?p - place)
    :precondition (and (at ?x ?p) (case-at ?p))
    :effect (and (in ?x) (not (at ?x ?p))))
  (:action take-out
    :parameters (?x - thing ?p - place)
    :precondition (and (in ?x) (case-at ?p))
    :effect (and (at ?x ?p) (not (in ?x)))))
