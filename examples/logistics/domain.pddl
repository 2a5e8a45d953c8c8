; Trucks drive within a city, planes fly between airports. Each package is at an unknown place of its city.
(define (domain logistics)
  (:requirements :typing :conditional-effects)
  (:types place vehicle package - object truck plane - vehicle)
  (:predicates (stands ?v - vehicle ?p - place) (street ?a ?b - place) (airport ?p - place)
               (lies ?k - package ?p - place) (inside ?k - package ?v - vehicle))
  (:action drive
    :parameters (?t - truck ?a ?b - place)
    :precondition (and (stands ?t ?a) (street ?a ?b))
    :effect (and (stands ?t ?b) (not (stands ?t ?a))))
  (:action fly
    :parameters (?l - plane ?a ?b - place)
    :precondition (and (stands ?l ?a) (airport ?a) (airport ?b) (not (= ?a ?b)))
    :effect (and (stands ?l ?b) (not (stands ?l ?a))))
  (:action load
    :parameters (?k - package ?v - vehicle ?p - place)
    :precondition (stands ?v ?p)
    :effect (when (lies ?k ?p) (and (inside ?k ?v) (not (lies ?k ?p)))))
  (:action unload
    :parameters (?k - package ?v - vehicle ?p - place)
    :precondition (stands ?v ?p)
    :effect (when (inside ?k ?v) (and (lies ?k ?p) (not (inside ?k ?v))))))
