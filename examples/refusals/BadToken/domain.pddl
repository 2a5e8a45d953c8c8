(define (domain switch)
  (:requirements :typing) (:functions (level%))
  (:types lamp)
  (:predicates (on ?l - lamp))
  (:action press
    :parameters (?l - lamp)
    :effect (on ?l)))
