; A robot floats in a cube, and nobody knows where. It moves along an axis; at a wall a move has no effect.
(define (domain cube)
  (:requirements :typing :conditional-effects)
  (:types axis line)
  (:predicates (at ?x - axis ?i - line) (next ?a ?b - line))
  (:action forward
    :parameters (?x - axis)
    :effect (forall (?a ?b - line) (when (and (at ?x ?a) (next ?a ?b)) (and (at ?x ?b) (not (at ?x ?a))))))
  (:action back
    :parameters (?x - axis)
    :effect (forall (?a ?b - line) (when (and (at ?x ?b) (next ?a ?b)) (and (at ?x ?a) (not (at ?x ?b)))))))
