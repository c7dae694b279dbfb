; The box and the robot are in the corner, and the light is wanted on.
(define (problem light)
  (:domain shakey)
  (:objects door1 corner1 wall1 door2 corner2 - place room1 room2 - room box1 - box switch1 - switch)
  (:init (in door1 room1) (in corner1 room1) (in wall1 room1) (in door1 corridor)
         (in door2 room2) (in corner2 room2) (in door2 corridor)
         (robot-at corner1) (box-at box1 corner1) (switch-at switch1 wall1) (on-floor))
  (:goal (and (light-on switch1))))
