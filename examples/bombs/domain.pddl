; One of some packages has a bomb. Dunking a package into the toilet disarms what is in it.
(define (domain bombs)
  (:requirements :typing :conditional-effects)
  (:types package)
  (:predicates (armed ?p - package) (safe))
  (:action dunk
    :parameters (?p - package)
    :effect (when (armed ?p) (safe))))
