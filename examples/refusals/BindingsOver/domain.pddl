; Eight parameters over eight objects: 8 to the 8th is 16,777,216 lists, and 2,396,746 partial ones begin with o1 or
; have no object yet.
(define (domain lists)
  (:predicates (p ?a) (done))
  (:action pick
    :parameters (?a ?b ?c ?d ?e ?f ?g ?h)
    :precondition (p ?a)
    :effect (done)))
