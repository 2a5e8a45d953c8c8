(define (domain switch)
  (:requirements :typing)
  (:types lamp)
  (:predicates (on ?l - lamp))
  (:action press
    :parameters (?l - lamp)
    :precondition (or (on ?l) (not (on ?l)))
    :effect (on ?l)))
