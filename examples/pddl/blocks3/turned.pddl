; A tower of three blocks is turned upside down.
(define (problem turned)
  (:domain blocks-three)
  (:objects a b c)
  (:init (on a b) (on b c) (on-table c) (clear a))
  (:goal (and (on c b) (on b a))))
