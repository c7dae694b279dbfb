; The movie of the competition of 1998: snacks are fetched, the tape is wound back and the counter set to nought.
(define (domain movie-strips)
  (:predicates (movie-rewound) (counter-at-two-hours) (counter-at-other-than-two-hours) (counter-at-zero) (have-chips) (have-dip)
               (have-pop) (have-cheese) (have-crackers) (chips ?x) (dip ?x) (pop ?x) (cheese ?x) (crackers ?x))
  (:action rewind-movie-2
    :parameters ()
    :precondition (counter-at-two-hours)
    :effect (movie-rewound))
  (:action rewind-movie
    :parameters ()
    :precondition (counter-at-other-than-two-hours)
    :effect (and (movie-rewound) (not (counter-at-zero))))
  (:action reset-counter
    :parameters ()
    :precondition ()
    :effect (counter-at-zero))
  (:action get-chips :parameters (?x) :precondition (chips ?x) :effect (have-chips))
  (:action get-dip :parameters (?x) :precondition (dip ?x) :effect (have-dip))
  (:action get-pop :parameters (?x) :precondition (pop ?x) :effect (have-pop))
  (:action get-cheese :parameters (?x) :precondition (cheese ?x) :effect (have-cheese))
  (:action get-crackers :parameters (?x) :precondition (crackers ?x) :effect (have-crackers)))
