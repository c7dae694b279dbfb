; The 8-puzzle: a tile slides to the empty place beside it.
(define (domain eight-puzzle)
  (:requirements :strips :typing)
  (:types tile place)
  (:predicates (at ?t - tile ?p - place) (empty ?p - place) (beside ?p ?q - place))
  (:action slide
    :parameters (?t - tile ?from ?to - place)
    :precondition (and (at ?t ?from) (empty ?to) (beside ?from ?to))
    :effect (and (at ?t ?to) (empty ?from) (not (at ?t ?from)) (not (empty ?to)))))
