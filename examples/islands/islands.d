(define (domain islands)
(:requirements :adl :non-deterministic)
(:types place animal - object monkey - animal fruit)
(:predicates (person-at ?p - place) (path ?p ?q - place) (strait ?p ?q - place) (bridge ?p ?q - place)
 (on-bridge ?m - animal) (fruit-at ?f - fruit ?p - place) (carries ?f - fruit) (drowned))
(:action walk
 :parameters (?p ?q - place)
 :precondition (and (person-at ?p) (or (path ?p ?q) (path ?q ?p)))
 :effect (and (not (person-at ?p)) (person-at ?q)))
(:action swim
 :parameters (?p ?q - place)
 :precondition (and (person-at ?p) (strait ?p ?q))
 :effect (and (not (person-at ?p)) (oneof (person-at ?q) (person-at ?p) (drowned))))
(:action take
 :parameters (?f - fruit ?p - place)
 :precondition (and (person-at ?p) (fruit-at ?f ?p))
 :effect (and (not (fruit-at ?f ?p)) (carries ?f)))
(:action lure
 :parameters (?m - monkey ?f - fruit ?p ?q - place)
 :precondition (and (person-at ?p) (bridge ?p ?q) (on-bridge ?m) (carries ?f))
 :effect (oneof (and (not (on-bridge ?m)) (not (carries ?f))) ()))
(:action cross
 :parameters (?p ?q - place)
 :precondition (and (person-at ?p) (bridge ?p ?q) (forall (?m - monkey) (not (on-bridge ?m))))
 :effect (and (not (person-at ?p)) (person-at ?q))))
