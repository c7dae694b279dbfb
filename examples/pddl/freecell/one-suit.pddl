; Two cards of one suit lie in one column, the lower value below.
(define (problem one-suit)
  (:domain freecell)
  (:objects club0 club1 club2 - card club - suit n0 n1 n2 - num)
  (:init (successor n1 n0) (successor n2 n1) (cellspace n1) (colspace n0) (value club0 n0) (value club1 n1) (value club2 n2)
         (suit club0 club) (suit club1 club) (suit club2 club) (home club0) (clear club2) (on club2 club1) (bottomcol club1))
  (:goal (and (home club2))))
