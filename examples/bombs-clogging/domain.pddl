; As bombs-toilets, but a dunked package clogs its toilet until that is flushed.
(define (domain bombs-clogging)
  (:requirements :typing :negative-preconditions :conditional-effects)
  (:types package toilet)
  (:predicates (armed ?p - package) (clogged ?t - toilet) (safe))
  (:action dunk
    :parameters (?p - package ?t - toilet)
    :precondition (not (clogged ?t))
    :effect (and (clogged ?t) (when (armed ?p) (safe))))
  (:action flush
    :parameters (?t - toilet)
    :effect (not (clogged ?t))))
