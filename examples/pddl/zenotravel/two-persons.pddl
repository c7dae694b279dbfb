; Two persons in two cities change places, and the aeroplane has fuel for one flight.
(define (problem two-persons)
  (:domain zeno-travel)
  (:objects plane1 - aircraft person1 person2 - person city0 city1 - city fl0 fl1 - flevel)
  (:init (at plane1 city0) (fuel-level plane1 fl1) (at person1 city0) (at person2 city1) (next fl0 fl1))
  (:goal (and (at person1 city1) (at person2 city0))))
