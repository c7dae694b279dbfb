; Names that scripts can't have, names that meet when a hyphen becomes an underscore, and a parameter with an object's name.
(define (DOMAIN Names)
  (:requirements :strips :typing)
  (:types big-room - place place)
  (:constants a-b - place)
  (:predicates (big-room ?x) (way ?x ?y - place) (at-it ?x - place))
  (:action go-to
    :parameters (?a-b ?a_b - place)
    :precondition (and (at-it ?a-b) (way ?a-b ?A_B))
    :effect (and (at-it ?a_b) (not (at-it ?a-b))))
  (:action go_to
    :parameters (?x - big-room)
    :precondition (and (at-it ?x))
    :effect (and (big-room ?x) (big-room a-b))))
