; Shakey's world of rooms, boxes, switches and doors as a textbook tells it (Russell and Norvig, Artificial Intelligence: A
; Modern Approach). A door is a place that is in its room and in the corridor.
(define (domain shakey)
  (:requirements :strips :typing)
  (:types place room box switch)
  (:constants corridor - room)
  (:predicates (robot-at ?p - place) (box-at ?b - box ?p - place) (switch-at ?s - switch ?p - place) (in ?p - place ?r - room)
               (on-floor) (on-box ?b - box) (light-on ?s - switch))
  (:action go
    :parameters (?from - place ?to - place ?r - room)
    :precondition (and (robot-at ?from) (in ?from ?r) (in ?to ?r) (on-floor))
    :effect (and (robot-at ?to) (not (robot-at ?from))))
  (:action push
    :parameters (?b - box ?from - place ?to - place ?r - room)
    :precondition (and (robot-at ?from) (box-at ?b ?from) (in ?from ?r) (in ?to ?r) (on-floor))
    :effect (and (robot-at ?to) (box-at ?b ?to) (not (robot-at ?from)) (not (box-at ?b ?from))))
  (:action climb-up
    :parameters (?b - box ?p - place)
    :precondition (and (robot-at ?p) (box-at ?b ?p) (on-floor))
    :effect (and (on-box ?b) (not (on-floor))))
  (:action climb-down
    :parameters (?b - box)
    :precondition (and (on-box ?b))
    :effect (and (on-floor) (not (on-box ?b))))
  (:action turn-on
    :parameters (?s - switch ?b - box ?p - place)
    :precondition (and (switch-at ?s ?p) (box-at ?b ?p) (robot-at ?p) (on-box ?b))
    :effect (and (light-on ?s))))
