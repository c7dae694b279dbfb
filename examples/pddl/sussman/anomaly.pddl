; c stands on a, and a on b on c is wanted: neither half of the goal can be reached first and kept.
(define (problem anomaly)
  (:domain sussman)
  (:objects a b c - block)
  (:init (on c a) (on-table a) (on-table b) (clear b) (clear c)
         (different a b) (different a c) (different b a) (different b c) (different c a) (different c b))
  (:goal (and (on a b) (on b c))))
