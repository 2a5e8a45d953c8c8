; A robot collects coins in a house with floors. Each coin lies at one of some spots.
; The robot walks along a floor, and rides the lift between floors from the spot where the shaft is.
(define (domain coins)
  (:requirements :typing :conditional-effects)
  (:types floor spot coin)
  (:predicates (at ?f - floor ?s - spot) (beside ?a ?b - spot) (above ?a ?b - floor) (shaft ?s - spot)
               (lies ?c - coin ?f - floor ?s - spot) (have ?c - coin))
  (:action walk
    :parameters (?f - floor ?a ?b - spot)
    :precondition (and (at ?f ?a) (beside ?a ?b))
    :effect (and (at ?f ?b) (not (at ?f ?a))))
  (:action up
    :parameters (?s - spot ?a ?b - floor)
    :precondition (and (at ?a ?s) (shaft ?s) (above ?b ?a))
    :effect (and (at ?b ?s) (not (at ?a ?s))))
  (:action down
    :parameters (?s - spot ?a ?b - floor)
    :precondition (and (at ?a ?s) (shaft ?s) (above ?a ?b))
    :effect (and (at ?b ?s) (not (at ?a ?s))))
  (:action collect
    :parameters (?c - coin ?f - floor ?s - spot)
    :precondition (at ?f ?s)
    :effect (when (lies ?c ?f ?s) (and (have ?c) (not (lies ?c ?f ?s))))))
