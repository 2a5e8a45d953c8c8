; Wires in a row carry unknown bits. A gate between two wires puts the greater bit on the later one.
; At the end each two neighbours are to be in order, which an inspection finds and any later gate forgets.
(define (domain sortnet)
  (:requirements :typing :negative-preconditions :conditional-effects)
  (:types wire)
  (:predicates (high ?w - wire) (ordered ?a ?b - wire) (before ?a ?b - wire) (neighbours ?a ?b - wire))
  (:action gate
    :parameters (?a ?b - wire)
    :precondition (before ?a ?b)
    :effect (and
      (when (and (high ?a) (not (high ?b))) (and (high ?b) (not (high ?a))))
      (forall (?c ?d - wire) (not (ordered ?c ?d)))))
  (:action inspect
    :parameters (?a ?b - wire)
    :precondition (neighbours ?a ?b)
    :effect (and (when (not (high ?a)) (ordered ?a ?b)) (when (high ?b) (ordered ?a ?b)))))
