; A goal with a variable: some room in which the robot and some box are together.
(define (domain anyroom)
  (:requirements :strips :typing :existential-preconditions)
  (:types room thing - object robot box - thing)
  (:predicates (in ?x - thing ?r - room) (door ?r - room ?s - room))
  (:action go
    :parameters (?x - robot ?r - room ?s - room)
    :precondition (and (in ?x ?r) (door ?r ?s))
    :effect (and (in ?x ?s) (not (in ?x ?r)))))
