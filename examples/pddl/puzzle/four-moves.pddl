; Four tiles are moved.
(define (problem four-moves)
  (:domain eight-puzzle)
  (:objects t1 t2 t3 t4 t5 t6 t7 t8 - tile
            p11 p12 p13 p21 p22 p23 p31 p32 p33 - place)
  (:init (empty p11) (at t1 p12) (at t3 p13) (at t4 p21) (at t2 p22) (at t5 p23) (at t7 p31) (at t8 p32) (at t6 p33)
         (beside p11 p12) (beside p11 p21) (beside p12 p13) (beside p12 p22) (beside p12 p11) (beside p13 p23)
         (beside p13 p12) (beside p21 p22) (beside p21 p31) (beside p21 p11) (beside p22 p23) (beside p22 p32)
         (beside p22 p21) (beside p22 p12) (beside p23 p33) (beside p23 p22) (beside p23 p13) (beside p31 p32)
         (beside p31 p21) (beside p32 p33) (beside p32 p31) (beside p32 p22) (beside p33 p32) (beside p33 p23))
  (:goal (and (at t1 p11) (at t2 p12) (at t3 p13) (at t4 p21) (at t5 p22) (at t6 p23) (at t7 p31) (at t8 p32))))
