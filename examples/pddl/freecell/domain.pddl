; The card game, of the competition of 2000: cards go from columns to cells, to other columns, and home by suit and value.
(define (domain freecell)
  (:requirements :strips :typing)
  (:types card colspace cellspace num suit)
  (:predicates (on ?c1 - card ?c2 - card) (incell ?c - card) (clear ?c - card) (cellspace ?n - num) (colspace ?n - num)
               (home ?c - card) (bottomcol ?c - card) (canstack ?c1 - card ?c2 - card) (suit ?c - card ?s - suit)
               (value ?c - card ?v - num) (successor ?n1 - num ?n0 - num))
  (:action move
    :parameters (?card ?oldcard ?newcard - card)
    :precondition (and (on ?card ?oldcard) (clear ?card) (clear ?newcard) (canstack ?card ?newcard))
    :effect (and (on ?card ?newcard) (clear ?oldcard) (not (on ?card ?oldcard)) (not (clear ?newcard))))
  (:action move-b
    :parameters (?card ?newcard - card ?cols ?ncols - num)
    :precondition (and (bottomcol ?card) (clear ?card) (canstack ?card ?newcard) (clear ?newcard) (colspace ?cols)
                       (successor ?ncols ?cols))
    :effect (and (on ?card ?newcard) (colspace ?ncols) (not (bottomcol ?card)) (not (clear ?newcard)) (not (colspace ?cols))))
  (:action sendtofree
    :parameters (?card ?oldcard - card ?cells ?ncells - num)
    :precondition (and (on ?card ?oldcard) (clear ?card) (cellspace ?cells) (successor ?cells ?ncells))
    :effect (and (incell ?card) (clear ?oldcard) (cellspace ?ncells) (not (on ?card ?oldcard)) (not (clear ?card))
                 (not (cellspace ?cells))))
  (:action sendtofree-b
    :parameters (?card - card ?cells ?ncells ?cols ?ncols - num)
    :precondition (and (bottomcol ?card) (clear ?card) (cellspace ?cells) (successor ?cells ?ncells) (colspace ?cols)
                       (successor ?ncols ?cols))
    :effect (and (incell ?card) (colspace ?ncols) (cellspace ?ncells) (not (bottomcol ?card)) (not (clear ?card))
                 (not (colspace ?cols)) (not (cellspace ?cells))))
  (:action sendtonewcol
    :parameters (?card ?oldcard - card ?cols ?ncols - num)
    :precondition (and (clear ?card) (colspace ?cols) (successor ?cols ?ncols) (on ?card ?oldcard))
    :effect (and (bottomcol ?card) (clear ?oldcard) (colspace ?ncols) (not (on ?card ?oldcard)) (not (colspace ?cols))))
  (:action sendtohome
    :parameters (?card ?oldcard - card ?suit - suit ?vcard - num ?homecard - card ?vhomecard - num)
    :precondition (and (clear ?card) (on ?card ?oldcard) (home ?homecard) (suit ?card ?suit) (suit ?homecard ?suit)
                       (value ?card ?vcard) (value ?homecard ?vhomecard) (successor ?vcard ?vhomecard))
    :effect (and (home ?card) (clear ?oldcard) (not (on ?card ?oldcard)) (not (home ?homecard)) (not (clear ?card))))
  (:action sendtohome-b
    :parameters (?card - card ?suit - suit ?vcard - num ?homecard - card ?vhomecard ?cols ?ncols - num)
    :precondition (and (bottomcol ?card) (clear ?card) (home ?homecard) (suit ?card ?suit) (suit ?homecard ?suit) (value ?card ?vcard)
                       (value ?homecard ?vhomecard) (successor ?vcard ?vhomecard) (colspace ?cols) (successor ?ncols ?cols))
    :effect (and (home ?card) (colspace ?ncols) (not (home ?homecard)) (not (clear ?card)) (not (bottomcol ?card))
                 (not (colspace ?cols))))
  (:action homefromfreecell
    :parameters (?card - card ?suit - suit ?vcard - num ?homecard - card ?vhomecard ?cells ?ncells - num)
    :precondition (and (incell ?card) (home ?homecard) (suit ?card ?suit) (suit ?homecard ?suit) (value ?card ?vcard)
                       (value ?homecard ?vhomecard) (successor ?vcard ?vhomecard) (cellspace ?cells) (successor ?ncells ?cells))
    :effect (and (home ?card) (cellspace ?ncells) (not (incell ?card)) (not (cellspace ?cells)) (not (home ?homecard))))
  (:action colfromfreecell
    :parameters (?card ?newcard - card ?cells ?ncells - num)
    :precondition (and (incell ?card) (clear ?newcard) (canstack ?card ?newcard) (cellspace ?cells) (successor ?ncells ?cells))
    :effect (and (cellspace ?ncells) (clear ?card) (on ?card ?newcard) (not (incell ?card)) (not (cellspace ?cells))
                 (not (clear ?newcard))))
  (:action newcolfromfreecell
    :parameters (?card - card ?cols ?ncols ?cells ?ncells - num)
    :precondition (and (incell ?card) (colspace ?cols) (cellspace ?cells) (successor ?cols ?ncols) (successor ?ncells ?cells))
    :effect (and (bottomcol ?card) (clear ?card) (colspace ?ncols) (cellspace ?ncells) (not (incell ?card)) (not (colspace ?cols))
                 (not (cellspace ?cells)))))
