; The one action names 17 * 17 * 17 = 4,913 atoms.
(define (domain cubes)
  (:predicates (p ?a ?b ?c))
  (:action paint
    :effect (forall (?a ?b ?c) (p ?a ?b ?c))))
