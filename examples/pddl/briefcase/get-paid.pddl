; The dictionary goes to the office, and the paycheck, which is in the case, stays at home.
(define (problem get-paid)
  (:domain briefcase)
  (:objects home office - place dictionary paycheck - thing)
  (:init (case-at home) (at dictionary home) (in paycheck))
  (:goal (and (at paycheck home) (at dictionary office) (case-at home))))
