; Blocks stand on the table or on each other, and nobody knows how. A hand that finds nothing does nothing.
(define (domain blocks)
  (:requirements :typing :conditional-effects)
  (:types block)
  (:predicates (on ?x ?y - block) (table ?x - block) (clear ?x - block))
  (:action lower
    :parameters (?x ?y - block)
    :precondition (not (= ?x ?y))
    :effect (when (and (clear ?x) (on ?x ?y)) (and (table ?x) (clear ?y) (not (on ?x ?y)))))
  (:action stack
    :parameters (?x ?y - block)
    :precondition (not (= ?x ?y))
    :effect (when (and (clear ?x) (table ?x) (clear ?y)) (and (on ?x ?y) (not (table ?x)) (not (clear ?y))))))
