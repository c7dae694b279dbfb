; Both things are fetched from the office.
(define (problem fetch-both)
  (:domain briefcase)
  (:objects home office - place dictionary paycheck - thing)
  (:init (case-at home) (at dictionary office) (at paycheck office))
  (:goal (and (at paycheck home) (at dictionary home))))
