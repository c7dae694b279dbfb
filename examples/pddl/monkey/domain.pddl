; The monkey and the bananas (McCarthy 1963), with one place for each thing.
(define (domain monkey)
  (:requirements :strips :typing)
  (:types place)
  (:predicates (monkey-at ?p - place) (box-at ?p - place) (bananas-at ?p - place) (on-floor) (on-box) (has-bananas))
  (:action go
    :parameters (?from - place ?to - place)
    :precondition (and (monkey-at ?from) (on-floor))
    :effect (and (monkey-at ?to) (not (monkey-at ?from))))
  (:action push
    :parameters (?from - place ?to - place)
    :precondition (and (monkey-at ?from) (box-at ?from) (on-floor))
    :effect (and (monkey-at ?to) (box-at ?to) (not (monkey-at ?from)) (not (box-at ?from))))
  (:action climb
    :parameters (?p - place)
    :precondition (and (monkey-at ?p) (box-at ?p) (on-floor))
    :effect (and (on-box) (not (on-floor))))
  (:action grasp
    :parameters (?p - place)
    :precondition (and (bananas-at ?p) (box-at ?p) (monkey-at ?p) (on-box))
    :effect (and (has-bananas))))
