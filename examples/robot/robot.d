(define (domain robot)
(:types room door)
(:predicates (at ?r - room) (beside ?d - door ?r - room) (open ?d - door) (wedged ?d - door) (has-wedge))
(:action open-door
 :parameters (?d - door ?r - room)
 :precondition (and (at ?r) (beside ?d ?r) (not (open ?d)))
 :effect (oneof (open ?d) ()))
(:action wedge
 :parameters (?d - door ?r - room)
 :precondition (and (at ?r) (beside ?d ?r) (open ?d) (has-wedge))
 :effect (and (not (has-wedge)) (wedged ?d)))
(:action take
 :parameters (?d - door ?r - room)
 :precondition (and (at ?r) (beside ?d ?r) (wedged ?d))
 :effect (and (has-wedge) (not (wedged ?d))))
(:action go
 :parameters (?d - door ?r ?s - room)
 :precondition (and (at ?r) (beside ?d ?r) (beside ?d ?s) (not (= ?r ?s)) (open ?d))
 :effect (and
  (when (wedged ?d) (and (not (at ?r)) (at ?s)))
  (when (not (wedged ?d)) (oneof (and (not (at ?r)) (at ?s)) (not (open ?d)))))))
