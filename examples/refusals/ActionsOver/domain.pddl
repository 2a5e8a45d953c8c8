; 28 * 28 * 28 = 21,952 actions.
(define (domain cubes)
  (:predicates (p ?a))
  (:action paint
    :parameters (?a ?b ?c)
    :effect (p ?a)))
