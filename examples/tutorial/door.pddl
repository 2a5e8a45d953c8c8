(define (domain door)
  (:requirements :typing :negative-preconditions :conditional-effects)
  (:types key)
  (:predicates (fits ?k - key) (unlocked) (inside))
  (:action turn
    :parameters (?k - key)
    :effect (when (fits ?k) (unlocked)))
  (:action enter
    :precondition (unlocked)
    :effect (inside)))
