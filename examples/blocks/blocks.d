(define (domain blocks)
(:requirements :typing :equality :negative-preconditions :non-deterministic)
(:types block table - place)
(:constants ground - table)
(:predicates (holding ?b - block) (on ?b - block ?p - place))
(:action pick-up
 :parameters (?b - block ?p - place)
 :precondition (and (not (= ?b ?p)) (on ?b ?p)
  (forall (?c - block) (not (or (holding ?c) (on ?c ?b)))))
 :effect (and (not (on ?b ?p)) (oneof (holding ?b) (on ?b ground))))
(:action put-down
 :parameters (?b - block)
 :precondition (holding ?b)
 :effect (and (not (holding ?b)) (on ?b ground)))
(:action put-on
 :parameters (?b ?c - block)
 :precondition (and (not (= ?b ?c)) (holding ?b) (not (exists (?d - block) (on ?d ?c))))
 :effect (and (not (holding ?b)) (oneof (on ?b ?c) (on ?b ground)))))
