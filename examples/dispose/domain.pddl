; Things lie about on a grid of cells, each at an unknown one. They are to be brought to the bin.
; The hands hold any number of things.
(define (domain dispose)
  (:requirements :typing :conditional-effects)
  (:types cell thing)
  (:predicates (robot ?c - cell) (beside ?a ?b - cell) (bin ?c - cell)
               (lies ?t - thing ?c - cell) (held ?t - thing) (gone ?t - thing))
  (:action move
    :parameters (?a ?b - cell)
    :precondition (and (robot ?a) (beside ?a ?b))
    :effect (and (robot ?b) (not (robot ?a))))
  (:action grasp
    :parameters (?t - thing ?c - cell)
    :precondition (robot ?c)
    :effect (when (lies ?t ?c) (and (held ?t) (not (lies ?t ?c)))))
  (:action drop
    :parameters (?t - thing ?c - cell)
    :precondition (and (robot ?c) (bin ?c))
    :effect (when (held ?t) (and (gone ?t) (not (held ?t))))))
