(define (domain miner)
(:requirements :adl :non-deterministic)
(:types place nugget beam - object mine camp - place)
(:predicates (path ?p ?q - place) (miner-at ?p - place) (vein ?n - nugget ?m - mine) (have ?n - nugget)
 (propped ?m - mine) (beam-at ?b - beam ?p - place) (shoulders ?b - beam) (buried))
(:action walk
 :parameters (?p ?q - place)
 :precondition (and (miner-at ?p) (not (= ?p ?q)) (or (path ?p ?q) (path ?q ?p)) (not (buried)))
 :effect (and (not (miner-at ?p)) (miner-at ?q)))
(:action shoulder
 :parameters (?b - beam ?p - place)
 :precondition (and (miner-at ?p) (beam-at ?b ?p) (not (buried))
  (forall (?c - beam) (not (shoulders ?c))))
 :effect (and (not (beam-at ?b ?p)) (shoulders ?b)))
(:action prop
 :parameters (?b - beam ?m - mine)
 :precondition (and (miner-at ?m) (shoulders ?b) (not (propped ?m)) (not (buried)))
 :effect (oneof (and (propped ?m) (not (shoulders ?b))) (and)))
(:action dig
 :parameters (?n - nugget ?m - mine)
 :precondition (and (miner-at ?m) (vein ?n ?m) (not (have ?n)) (not (buried)))
 :effect (oneof (have ?n) (when (not (propped ?m)) (buried)))))
