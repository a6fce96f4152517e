(define (domain faults)
(:requirements :adl :non-deterministic)
(:types operation kit)
(:predicates (before ?o ?p - operation) (done ?o - operation) (used ?k - kit) (fault ?o - operation))
(:action perform
 :parameters (?o - operation)
 :precondition (and (not (done ?o)) (not (exists (?p - operation) (fault ?p)))
  (forall (?p - operation) (imply (before ?p ?o) (done ?p))))
 :effect (oneof (done ?o) (fault ?o)))
(:action repair
 :parameters (?o - operation ?k - kit)
 :precondition (and (fault ?o) (not (used ?k)))
 :effect (and (not (fault ?o)) (done ?o) (used ?k)))
(:action restart
 :precondition (exists (?o - operation) (fault ?o))
 :effect (forall (?o - operation) (and (not (fault ?o)) (not (done ?o))))))
