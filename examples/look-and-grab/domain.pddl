; As dispose, but one grab takes all that lies at the cell or beside it, and only empty hands grab.
; Whether a grab took something is not seen, so afterwards nobody knows whether the hands are empty.
(define (domain look-and-grab)
  (:requirements :typing :conditional-effects)
  (:types cell thing)
  (:predicates (robot ?c - cell) (beside ?a ?b - cell) (near ?a ?b - cell) (bin ?c - cell)
               (lies ?t - thing ?c - cell) (held ?t - thing) (empty) (gone ?t - thing))
  (:action move
    :parameters (?a ?b - cell)
    :precondition (and (robot ?a) (beside ?a ?b))
    :effect (and (robot ?b) (not (robot ?a))))
  (:action grab
    :parameters (?c - cell)
    :precondition (and (robot ?c) (empty))
    :effect (forall (?t - thing ?d - cell)
      (when (and (lies ?t ?d) (near ?c ?d))
        (and (held ?t) (not (lies ?t ?d)) (not (empty))))))
  (:action dump
    :parameters (?c - cell)
    :precondition (and (robot ?c) (bin ?c))
    :effect (and (empty) (forall (?t - thing) (when (held ?t) (and (gone ?t) (not (held ?t))))))))
