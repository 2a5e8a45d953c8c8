; A robot stands in some corner of a square. At a wall a move has no effect.
(define (domain corners)
  (:requirements :typing :conditional-effects)
  (:types line)
  (:predicates (column ?i - line) (row ?i - line) (next ?a ?b - line))
  (:action east
    :effect (forall (?a ?b - line) (when (and (column ?a) (next ?a ?b)) (and (column ?b) (not (column ?a))))))
  (:action west
    :effect (forall (?a ?b - line) (when (and (column ?b) (next ?a ?b)) (and (column ?a) (not (column ?b))))))
  (:action north
    :effect (forall (?a ?b - line) (when (and (row ?a) (next ?a ?b)) (and (row ?b) (not (row ?a))))))
  (:action south
    :effect (forall (?a ?b - line) (when (and (row ?b) (next ?a ?b)) (and (row ?a) (not (row ?b)))))))
