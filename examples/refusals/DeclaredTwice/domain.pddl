(define (domain switch)
  (:requirements :typing)
  (:types lamp)
  (:predicates (on ?l - lamp))
  (:action press
    :parameters (?l - lamp)
    :effect (on ?l))
  (:action press
    :parameters (?l - lamp)
    :effect (not (on ?l))))
