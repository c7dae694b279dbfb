; The robot comes from the other room. There is a plan of six steps, and the search meets its node limit before.
(define (problem far)
  (:domain shakey)
  (:objects door1 corner1 wall1 door2 corner2 - place room1 room2 - room box1 - box switch1 - switch)
  (:init (in door1 room1) (in corner1 room1) (in wall1 room1) (in door1 corridor)
         (in door2 room2) (in corner2 room2) (in door2 corridor)
         (robot-at corner2) (box-at box1 corner1) (switch-at switch1 wall1) (on-floor))
  (:goal (and (light-on switch1))))
