(define (domain tire)
(:requirements :typing :negative-preconditions :non-deterministic)
(:types location)
(:predicates (car-at ?l - location) (spare-at ?l - location) (road ?from ?to - location) (flat))
(:action move-car
 :parameters (?from ?to - location)
 :precondition (and (car-at ?from) (road ?from ?to) (not (flat)))
 :effect (and (not (car-at ?from)) (car-at ?to) (oneof (and) (flat))))
(:action change-tire
 :parameters (?l - location)
 :precondition (and (car-at ?l) (spare-at ?l) (flat))
 :effect (and (not (spare-at ?l)) (not (flat)))))
