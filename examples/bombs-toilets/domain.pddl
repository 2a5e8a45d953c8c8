; As bombs, with several toilets, none of which clogs.
(define (domain bombs-toilets)
  (:requirements :typing :conditional-effects)
  (:types package toilet)
  (:predicates (armed ?p - package) (safe))
  (:action dunk
    :parameters (?p - package ?t - toilet)
    :effect (when (armed ?p) (safe))))
