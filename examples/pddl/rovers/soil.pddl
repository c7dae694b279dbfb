; A sample of soil is taken at another waypoint, and told to the lander.
(define (problem soil)
  (:domain rover)
  (:objects general - lander colour - mode rover0 - rover rover0store - store waypoint0 waypoint1 waypoint2 - waypoint
            camera0 - camera objective0 - objective)
  (:init (visible waypoint0 waypoint1) (visible waypoint1 waypoint0) (visible waypoint1 waypoint2) (visible waypoint2 waypoint1)
         (at_soil_sample waypoint1) (at_lander general waypoint0) (channel_free general) (at rover0 waypoint0) (available rover0)
         (store_of rover0store rover0) (empty rover0store) (equipped_for_soil_analysis rover0) (equipped_for_imaging rover0)
         (can_traverse rover0 waypoint0 waypoint1) (can_traverse rover0 waypoint1 waypoint0)
         (can_traverse rover0 waypoint1 waypoint2) (can_traverse rover0 waypoint2 waypoint1)
         (on_board camera0 rover0) (calibration_target camera0 objective0) (supports camera0 colour)
         (visible_from objective0 waypoint2))
  (:goal (and (communicated_soil_data waypoint1))))
