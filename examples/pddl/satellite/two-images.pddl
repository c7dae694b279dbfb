; Two images, and the satellite points home.
(define (problem two-images)
  (:domain satellite)
  (:objects satellite0 - satellite instrument0 - instrument thermograph0 - mode groundstation star phenomenon planet - direction)
  (:init (supports instrument0 thermograph0) (calibration_target instrument0 groundstation) (on_board instrument0 satellite0)
         (power_avail satellite0) (pointing satellite0 star))
  (:goal (and (have_image phenomenon thermograph0) (have_image planet thermograph0) (pointing satellite0 groundstation))))
