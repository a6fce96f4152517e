(define (domain spiky-tire)
(:requirements :adl :non-deterministic)
(:types location tire)
(:predicates (car-at ?l - location) (road ?l ?m - location) (spiky ?l ?m - location)
 (tire-at ?t - tire ?l - location) (in-trunk ?t - tire) (flat))
(:action drive
 :parameters (?l ?m - location)
 :precondition (and (car-at ?l) (not (flat)) (or (road ?l ?m) (spiky ?l ?m)))
 :effect (and (not (car-at ?l)) (car-at ?m) (when (spiky ?l ?m) (oneof () (flat)))))
(:action load
 :parameters (?t - tire ?l - location)
 :precondition (and (car-at ?l) (tire-at ?t ?l) (not (exists (?u - tire) (in-trunk ?u))))
 :effect (and (not (tire-at ?t ?l)) (in-trunk ?t)))
(:action change
 :parameters (?t - tire ?l - location)
 :precondition (and (car-at ?l) (flat) (or (in-trunk ?t) (tire-at ?t ?l)))
 :effect (oneof (and (not (flat)) (not (in-trunk ?t)) (not (tire-at ?t ?l))) ())))
