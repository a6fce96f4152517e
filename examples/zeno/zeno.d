(define (domain zeno)
(:requirements :adl :non-deterministic)
(:types vehicle person - movable plane taxi - vehicle city level)
(:constants empty full - level)
(:predicates (at ?m - movable ?c - city) (in ?p - person ?v - vehicle) (booked ?p - person ?v - plane)
 (road ?c ?d - city) (alternate ?c ?d - city) (fuel ?v - plane ?l - level) (next ?l ?m - level) (pump ?c - city))
(:action board
 :parameters (?p - person ?v - (either plane taxi) ?c - city)
 :precondition (and (at ?p ?c) (at ?v ?c))
 :effect (oneof (and (not (at ?p ?c)) (in ?p ?v)) (and)))
(:action alight
 :parameters (?p - person ?v - vehicle ?c - city)
 :precondition (and (in ?p ?v) (at ?v ?c))
 :effect (and (not (in ?p ?v)) (at ?p ?c)))
(:action fly
 :parameters (?v - plane ?c ?d - city ?l ?m - level)
 :precondition (and (at ?v ?c) (not (= ?c ?d)) (fuel ?v ?l) (next ?m ?l)
  (forall (?p - person) (imply (booked ?p ?v) (not (at ?p ?c)))))
 :effect (and (not (at ?v ?c)) (not (fuel ?v ?l)) (fuel ?v ?m)
  (oneof (at ?v ?d) (forall (?e - city) (when (alternate ?d ?e) (at ?v ?e))))))
(:action drive
 :parameters (?t - taxi ?c ?d - city)
 :precondition (and (at ?t ?c) (or (road ?c ?d) (road ?d ?c)))
 :effect (and (not (at ?t ?c)) (at ?t ?d)))
(:action refuel
 :parameters (?v - plane ?c - city)
 :precondition (and (at ?v ?c) (pump ?c))
 :effect (and (forall (?l - level) (when (not (= ?l full)) (not (fuel ?v ?l)))) (fuel ?v full))))
