(define (domain doors)
(:requirements :adl :non-deterministic)
(:types room door)
(:predicates (robot-at ?r - room) (joins ?d - door ?r ?s - room) (open ?d - door) (jammed ?d - door))
(:action open-door
 :parameters (?d - door ?r ?s - room)
 :precondition (and (robot-at ?r) (not (open ?d)) (not (jammed ?d)) (or (joins ?d ?r ?s) (joins ?d ?s ?r)))
 :effect (oneof (open ?d) (and)))
(:action free-door
 :parameters (?d - door ?r ?s - room)
 :precondition (and (robot-at ?r) (jammed ?d) (or (joins ?d ?r ?s) (joins ?d ?s ?r)))
 :effect (oneof (not (jammed ?d)) (and)))
(:action go
 :parameters (?d - door ?r ?s - room)
 :precondition (and (robot-at ?r) (open ?d) (or (joins ?d ?r ?s) (joins ?d ?s ?r)))
 :effect (and (not (robot-at ?r)) (robot-at ?s)
  (forall (?e - door) (when (and (not (= ?e ?d)) (not (jammed ?e)))
   (oneof (and) (not (open ?e)) (when (open ?e) (and (not (open ?e)) (jammed ?e)))))))))
