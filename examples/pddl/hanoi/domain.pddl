; The towers of Hanoi (Lucas 1883): discs and pegs are things that a smaller disc may lie on.
(define (domain hanoi)
  (:requirements :strips)
  (:predicates (on ?d ?x) (clear ?x) (smaller ?d ?x))
  (:action move
    :parameters (?d ?from ?to)
    :precondition (and (smaller ?d ?to) (on ?d ?from) (clear ?d) (clear ?to))
    :effect (and (on ?d ?to) (clear ?from) (not (on ?d ?from)) (not (clear ?to)))))
