(define (domain switch)
  (:requirements :typing)
  (:types lamp)
  (:predicates (on ?l - lamp))
  (:action press
    :parameters (?l - lamp)
    :effect (on ?l)))
