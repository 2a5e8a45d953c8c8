; 21 * 21 actions with 21 * 21 * 21 effects each: 4,084,101 in all.
(define (domain cubes)
  (:predicates (p ?a))
  (:action paint
    :parameters (?a ?b)
    :effect (forall (?c ?d ?e) (p ?c))))
