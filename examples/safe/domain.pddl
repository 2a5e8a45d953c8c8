; A safe has one right combination. Trying it opens the safe; trying another does nothing.
(define (domain safe)
  (:requirements :typing :conditional-effects)
  (:types combination)
  (:predicates (right ?c - combination) (open))
  (:action try
    :parameters (?c - combination)
    :effect (when (right ?c) (open))))
