; A robot in a corridor looks for a switch, whose place it knows; whether the switch is up nobody knows.
(define (domain corridor)
  (:predicates (at ?c) (next ?a ?b) (switch ?c) (up) (done))
  (:action right
    :effect (forall (?a ?b) (when (and (at ?a) (next ?a ?b)) (and (at ?b) (not (at ?a))))))
  (:action left
    :effect (forall (?a ?b) (when (and (at ?b) (next ?a ?b)) (and (at ?a) (not (at ?b))))))
  (:action turn
    :effect (forall (?c) (and
      (when (and (at ?c) (switch ?c) (up)) (done))
      (when (and (at ?c) (switch ?c) (not (up))) (done))))))
