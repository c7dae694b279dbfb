; The briefcase as Pednault (1988) has it: what is in the briefcase moves with it, which is a conditional effect on all things.
(define (domain briefcase-world)
  (:requirements :adl)
  (:types place thing)
  (:predicates (at ?x - object ?p - place) (in ?x - thing) (case-at ?p - place))
  (:action move-case
    :parameters (?from ?to - place)
    :precondition (and (case-at ?from) (not (= ?from ?to)))
    :effect (and (case-at ?to) (not (case-at ?from))
                 (forall (?x - thing) (when (in ?x) (and (at ?x ?to) (not (at ?x ?from)))))))
  (:action put-in
    :parameters (?x - thing ?p - place)
    :precondition (and (not (in ?x)) (at ?x ?p) (case-at ?p))
    :effect (in ?x))
  (:action take-out
    :parameters (?x - thing)
    :precondition (in ?x)
    :effect (not (in ?x))))
