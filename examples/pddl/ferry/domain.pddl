; A ferry takes one car at a time from shore to shore, as in the examples that came with UCPOP (1992).
(define (domain ferry)
  (:requirements :strips :typing)
  (:types place auto)
  (:predicates (at-ferry ?p - place) (at ?c - auto ?p - place) (empty-ferry) (on ?c - auto))
  (:action board
    :parameters (?c - auto ?p - place)
    :precondition (and (at ?c ?p) (at-ferry ?p) (empty-ferry))
    :effect (and (on ?c) (not (at ?c ?p)) (not (empty-ferry))))
  (:action debark
    :parameters (?c - auto ?p - place)
    :precondition (and (on ?c) (at-ferry ?p))
    :effect (and (at ?c ?p) (empty-ferry) (not (on ?c))))
  (:action sail
    :parameters (?from - place ?to - place)
    :precondition (and (at-ferry ?from))
    :effect (and (at-ferry ?to) (not (at-ferry ?from)))))
