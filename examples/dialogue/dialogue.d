(define (domain dialogue)
(:requirements :adl :non-deterministic)
(:types slot level)
(:constants none - level)
(:predicates (less ?a ?b - level) (patience ?l - level) (needs ?s ?t - slot) (heard ?s - slot)
 (sure ?s - slot) (served) (handed-over))
(:action ask
 :parameters (?s - slot ?l ?m - level)
 :precondition (and (patience ?l) (less ?m ?l) (not (heard ?s))
  (forall (?t - slot) (imply (needs ?s ?t) (sure ?t))))
 :effect (oneof (heard ?s) (and (heard ?s) (sure ?s)) (and (not (patience ?l)) (patience ?m))))
(:action confirm
 :parameters (?s - slot ?l ?m - level)
 :precondition (and (patience ?l) (less ?m ?l) (heard ?s) (not (sure ?s)))
 :effect (oneof (sure ?s) (and (not (heard ?s)) (not (patience ?l)) (patience ?m))))
(:action serve
 :parameters (?l - level)
 :precondition (and (patience ?l) (not (= ?l none)) (forall (?s - slot) (sure ?s)))
 :effect (served))
(:action apologize
 :precondition (and (patience none) (not (handed-over)))
 :effect (forall (?s - slot) (when (not (sure ?s)) (not (heard ?s)))))
(:action hand-over
 :precondition (and (patience none) (not (exists (?s - slot) (and (heard ?s) (not (sure ?s))))))
 :effect (handed-over)))
