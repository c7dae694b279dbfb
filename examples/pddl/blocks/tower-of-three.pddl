; A tower of three blocks, of which the lowest is wanted in the hand's reach: b on the table.
(define (problem tower-of-three)
  (:domain blocks)
  (:objects a b c)
  (:init (on a b) (on b c) (on-table c) (clear a) (hand-empty))
  (:goal (and (on-table b))))
