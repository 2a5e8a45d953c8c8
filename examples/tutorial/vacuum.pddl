(define (domain vacuum)
  (:requirements :typing)
  (:types room)
  (:predicates (robot-at ?r - room) (dirty ?r - room))
  (:action move
    :parameters (?a ?b - room)
    :precondition (robot-at ?a)
    :effect (and (robot-at ?b) (not (robot-at ?a))))
  (:action clean
    :parameters (?r - room)
    :precondition (and (robot-at ?r) (dirty ?r))
    :effect (not (dirty ?r))))
