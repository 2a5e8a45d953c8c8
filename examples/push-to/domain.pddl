; Things lie at unknown cells of a grid. The robot carries nothing: it pushes what lies at its cell
; to a cell beside it, and goes along. From the counter a thing that lies there can be taken.
(define (domain push-to)
  (:requirements :typing :conditional-effects)
  (:types cell thing)
  (:predicates (robot ?c - cell) (beside ?a ?b - cell) (counter ?c - cell)
               (lies ?t - thing ?c - cell) (taken ?t - thing))
  (:action move
    :parameters (?a ?b - cell)
    :precondition (and (robot ?a) (beside ?a ?b))
    :effect (and (robot ?b) (not (robot ?a))))
  (:action push
    :parameters (?t - thing ?a ?b - cell)
    :precondition (and (robot ?a) (beside ?a ?b))
    :effect (and (robot ?b) (not (robot ?a))
      (when (lies ?t ?a) (and (lies ?t ?b) (not (lies ?t ?a))))))
  (:action take
    :parameters (?t - thing ?c - cell)
    :precondition (counter ?c)
    :effect (when (lies ?t ?c) (and (taken ?t) (not (lies ?t ?c))))))
