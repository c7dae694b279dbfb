; Blocks that are moved in one step, so that there is no hand (Sussman 1973, as textbooks tell it). The predicate
; different, which no action changes, keeps a block from being moved onto itself.
(define (domain sussman)
  (:requirements :strips :typing)
  (:types block)
  (:predicates (on ?x - block ?y - block) (on-table ?x - block) (clear ?x - block) (different ?x - block ?y - block))
  (:action to-table
    :parameters (?x - block ?y - block)
    :precondition (and (clear ?x) (on ?x ?y))
    :effect (and (on-table ?x) (clear ?y) (not (on ?x ?y))))
  (:action from-table
    :parameters (?x - block ?y - block)
    :precondition (and (clear ?x) (clear ?y) (on-table ?x) (different ?x ?y))
    :effect (and (on ?x ?y) (not (on-table ?x)) (not (clear ?y)))))
