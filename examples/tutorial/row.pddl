(define (domain row)
  (:requirements :typing :conditional-effects)
  (:types cell)
  (:predicates (at ?c - cell) (next ?a ?b - cell))
  (:action right
    :effect (forall (?a ?b - cell)
      (when (and (at ?a) (next ?a ?b))
        (and (at ?b) (not (at ?a))))))
  (:action left
    :effect (forall (?a ?b - cell)
      (when (and (at ?b) (next ?a ?b))
        (and (at ?a) (not (at ?b)))))))
