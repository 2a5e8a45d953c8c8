"""A domain of more than 16,777,216 bytes."""
open("domain.pddl", "w").write(" " * 16777217)
open("problem.pddl", "w").write("(define (problem p) (:goal ()))")
