; Rooms in a ring, each with a window. A window that is closed can be locked, from its room.
; Nobody knows in which room the robot is, nor what windows are closed or locked.
(define (domain ring)
  (:requirements :typing :conditional-effects)
  (:types room)
  (:predicates (in ?r - room) (closed ?r - room) (locked ?r - room) (next ?a ?b - room))
  (:action forward
    :effect (forall (?a ?b - room) (when (and (in ?a) (next ?a ?b)) (and (in ?b) (not (in ?a))))))
  (:action back
    :effect (forall (?a ?b - room) (when (and (in ?b) (next ?a ?b)) (and (in ?a) (not (in ?b))))))
  (:action close
    :effect (forall (?r - room) (when (in ?r) (closed ?r))))
  (:action lock
    :effect (forall (?r - room) (when (and (in ?r) (closed ?r)) (locked ?r)))))
