(define (domain first-responders)
(:requirements :adl :non-deterministic)
(:types location unit victim - object engine ambulance - unit)
(:predicates (unit-at ?u - unit ?l - location) (road ?l ?m - location) (hydrant ?l - location)
 (hospital ?l - location) (fire ?l - location) (water ?e - engine) (victim-at ?v - victim ?l - location)
 (aboard ?v - victim ?a - ambulance) (hurt ?v - victim) (dying ?v - victim))
(:action drive
 :parameters (?u - (either engine ambulance) ?l ?m - location)
 :precondition (and (unit-at ?u ?l) (or (road ?l ?m) (road ?m ?l)))
 :effect (and (not (unit-at ?u ?l)) (unit-at ?u ?m)))
(:action fill
 :parameters (?e - engine ?l - location)
 :precondition (and (unit-at ?e ?l) (hydrant ?l) (not (water ?e)))
 :effect (water ?e))
(:action extinguish
 :parameters (?e - engine ?l - location)
 :precondition (and (unit-at ?e ?l) (water ?e) (fire ?l))
 :effect (and (not (water ?e)) (oneof (not (fire ?l)) ())))
(:action treat
 :parameters (?v - victim ?l - location)
 :precondition (and (victim-at ?v ?l) (not (fire ?l)) (exists (?u - unit) (unit-at ?u ?l)))
 :effect (and (when (hurt ?v) (oneof (not (hurt ?v)) ()))
  (when (dying ?v) (oneof (and (not (dying ?v)) (hurt ?v)) ()))))
(:action load
 :parameters (?v - victim ?a - ambulance ?l - location)
 :precondition (and (victim-at ?v ?l) (unit-at ?a ?l) (not (fire ?l))
  (forall (?w - victim) (not (aboard ?w ?a))))
 :effect (and (not (victim-at ?v ?l)) (aboard ?v ?a)))
(:action unload
 :parameters (?v - victim ?a - ambulance ?l - location)
 :precondition (and (aboard ?v ?a) (unit-at ?a ?l) (hospital ?l))
 :effect (and (not (aboard ?v ?a)) (victim-at ?v ?l) (not (hurt ?v)) (not (dying ?v)))))
