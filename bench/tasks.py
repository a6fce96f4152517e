#!/usr/bin/env python3
"""Tasks of growing size: each function returns the texts of a domain, a problem and a side list.

usage: bench/tasks.py --write FOLDER [WORD ..]

Writes the tasks whose names contain one of the words, or all of them, as folders NAME with the files NAME.d, NAME.p and
NAME.unfair, as examples/ has them; tools/batch takes such a FOLDER.
"""
import argparse
import dataclasses
import os
import random
import re
import typing

EXAMPLES = os.path.join(os.path.dirname(os.path.dirname(os.path.abspath(__file__))), "examples")


def places(count, goal_in_reach=True):
    """A chain of places with an atom each: one step forward, or none. Each place is a state and needs a rule of its own."""
    domain = """(define (domain places) (:types place)
(:predicates (at ?p - place) (next ?p ?q - place))
(:action go :parameters (?p ?q - place) :precondition (and (at ?p) (next ?p ?q))
 :effect (oneof (and (not (at ?p)) (at ?q)) (and))))
"""
    names = " ".join(f"p{i}" for i in range(count))
    nexts = " ".join(f"(next p{i} p{i + 1})" for i in range(count - 1))
    goal = f"(at p{count - 1})" if goal_in_reach else f"(and (at p0) (at p{count - 1}))"
    return domain, f"(define (problem p) (:domain places) (:objects {names} - place)\n(:init (at p0) {nexts}) (:goal {goal}))\n", ""


def counter(bits, unfair=False):
    """A binary counter: a chain of 2 ^ bits states over few atoms, so each rule needs nearly a whole state. With an opponent who
    picks whether a step counts, nothing wins."""
    actions = []
    for bit in range(bits):
        low = " ".join(f"(b{i})" for i in range(bit))
        clear = " ".join(f"(not (b{i}))" for i in range(bit))
        actions.append(f"(:action inc{bit} :precondition (and {low} (not (b{bit})))\n :effect (oneof (and {clear} (b{bit})) (and)))")
    atoms = " ".join(f"(b{i})" for i in range(bits))
    domain = f"(define (domain counter) (:predicates {atoms})\n" + "\n".join(actions) + ")\n"
    side = " ".join(f"inc{bit}" for bit in range(bits)) if unfair else ""
    return domain, f"(define (problem c) (:domain counter) (:goal (and {atoms})))\n", side


def grid(sides, length, goal_in_reach=True):
    """A grid with this many sides of this length: two moves for each side, each of which may do nothing. Without a goal in reach
    all states are losing, which no relaxation tells."""
    domain = """(define (domain grid) (:types side place)
(:predicates (at ?s - side ?p - place) (next ?p ?q - place))
(:action up :parameters (?s - side ?p ?q - place) :precondition (and (at ?s ?p) (next ?p ?q))
 :effect (oneof (and (not (at ?s ?p)) (at ?s ?q)) (and)))
(:action down :parameters (?s - side ?p ?q - place) :precondition (and (at ?s ?q) (next ?p ?q))
 :effect (oneof (and (not (at ?s ?q)) (at ?s ?p)) (and))))
"""
    side_names = " ".join(f"s{i}" for i in range(sides))
    names = " ".join(f"p{i}" for i in range(length))
    nexts = " ".join(f"(next p{i} p{i + 1})" for i in range(length - 1))
    starts = " ".join(f"(at s{i} p0)" for i in range(sides))
    last = f"p{length - 1}"
    goal = " ".join(f"(at s{i} {last})" for i in range(sides)) if goal_in_reach else f"(at s0 p0) (at s0 {last})"
    problem = f"(define (problem g) (:domain grid) (:objects {side_names} - side {names} - place)\n(:init {starts} {nexts}) (:goal (and {goal})))\n"
    return domain, problem, ""


def wide(bits, idle):
    """A counter beside many actions that never apply, each with an atom of its own, which make each state wide."""
    domain, problem, side = counter(bits)
    atoms = " ".join(f"(x{i})" for i in range(idle))
    actions = "\n".join(f"(:action idle{i} :precondition (x{i}) :effect (not (x{i})))" for i in range(idle))
    return domain.rstrip()[:-1].replace("(:predicates", f"(:predicates {atoms}", 1) + "\n" + actions + ")\n", problem, side


def lamps(count):
    """A walk past lamps: each step may be repeated, and a further action switches any lamp on or off by chance. So states are as
    many as there are sets of lamps, and none of them matters."""
    domain = """(define (domain demo) (:types place lamp) (:constants l0 - lamp)
(:predicates (at ?p - place) (easy ?p ?q - place) (hard ?p ?q - place) (lit ?l - lamp))
(:action walk :parameters (?p ?q - place) :precondition (and (at ?p) (easy ?p ?q))
 :effect (oneof (and (not (at ?p)) (at ?q)) (and)))
(:action carry :parameters (?p ?q - place) :precondition (and (at ?p) (hard ?p ?q))
 :effect (oneof (and (not (at ?p)) (at ?q)) (and (not (at ?p)) (at ?q) (lit l0))))
(:action press :parameters (?l - lamp) :effect (oneof (lit ?l) (not (lit ?l)))))
"""
    places = " ".join(f"p{i}" for i in range(count + 1))
    names = " ".join(f"l{i}" for i in range(count))
    steps = " ".join(f"(easy p{i} p{i + 1})" for i in range(count))
    problem = f"(define (problem demo) (:domain demo) (:objects {places} - place {names} - lamp)\n(:init (at p0) {steps}) (:goal (at p{count})))\n"
    return domain, problem, "carry\n"


def blocks(count, goal_in_reach=True):
    """Blocks in towers of two that become one tower, with a hand that may drop what it takes or puts down. Out of reach: two blocks on
    the same one."""
    domain = """(define (domain blocks)
(:requirements :non-deterministic :negative-preconditions :equality :typing)
(:types block)
(:predicates (holding ?b - block) (emptyhand) (on-table ?b - block) (on ?b1 ?b2 - block) (clear ?b - block))
(:action pick-up :parameters (?b1 ?b2 - block)
 :precondition (and (not (= ?b1 ?b2)) (emptyhand) (clear ?b1) (on ?b1 ?b2))
 :effect (oneof (and (holding ?b1) (clear ?b2) (not (emptyhand)) (not (clear ?b1)) (not (on ?b1 ?b2)))
  (and (clear ?b2) (on-table ?b1) (not (on ?b1 ?b2)))))
(:action pick-up-from-table :parameters (?b - block)
 :precondition (and (emptyhand) (clear ?b) (on-table ?b))
 :effect (oneof (and) (and (holding ?b) (not (emptyhand)) (not (on-table ?b)) (not (clear ?b)))))
(:action put-on-block :parameters (?b1 ?b2 - block)
 :precondition (and (not (= ?b1 ?b2)) (holding ?b1) (clear ?b2))
 :effect (oneof (and (on ?b1 ?b2) (emptyhand) (clear ?b1) (not (holding ?b1)) (not (clear ?b2)))
  (and (on-table ?b1) (emptyhand) (clear ?b1) (not (holding ?b1)))))
(:action put-down :parameters (?b - block) :precondition (holding ?b)
 :effect (and (on-table ?b) (emptyhand) (clear ?b) (not (holding ?b)))))
"""
    names = " ".join(f"b{i}" for i in range(count))
    lower = range(0, count, 2)
    facts = [f"(on-table b{i})" for i in lower] + [f"(on b{i + 1} b{i}) (clear b{i + 1})" for i in lower if i + 1 < count]
    facts += [f"(clear b{count - 1})"] if count % 2 else []
    goal = " ".join(f"(on b{i} b{i + 1})" for i in range(count - 1)) if goal_in_reach else "(on b0 b1) (on b2 b1)"
    problem = f"(define (problem tower) (:domain blocks) (:objects {names} - block)\n(:init (emptyhand) {' '.join(facts)})\n(:goal (and {goal})))\n"
    return domain, problem, ""


def roads(side, unfair=False):
    """A triangle of one-way roads with flat tires: the short way along its edge has no spare wheels, and the long way has one in
    each place. With an opponent who picks where a tire goes flat, only the long way wins."""
    domain = """(define (domain tire) (:requirements :typing :negative-preconditions :non-deterministic)
(:types location)
(:predicates (car-at ?l - location) (spare-at ?l - location) (road ?from ?to - location) (flat))
(:action move-car :parameters (?from ?to - location)
 :precondition (and (car-at ?from) (road ?from ?to) (not (flat)))
 :effect (and (not (car-at ?from)) (car-at ?to) (oneof (and) (flat))))
(:action change-tire :parameters (?l - location)
 :precondition (and (car-at ?l) (spare-at ?l) (flat))
 :effect (and (not (spare-at ?l)) (not (flat)))))
"""
    last = 2 * side + 1
    places = [(row, at) for row in range(1, last + 1) for at in range(1, last + 2 - row)]
    facts = ["(car-at l-1-1)"]
    for row, at in places:
        ways = [(row, at + 1)] if row % 2 else []
        ways += [(row + 1, at)] + ([(row - 1, at + 1)] if row > 1 else [])
        facts += [f"(road l-{row}-{at} l-{r}-{a})" for r, a in ways if (r, a) in places]
        if row % 2 == 0 or row > 1 and at in (1, last + 1 - row):
            facts.append(f"(spare-at l-{row}-{at})")
    names = " ".join(f"l-{row}-{at}" for row, at in places)
    problem = f"(define (problem triangle) (:domain tire) (:objects {names} - location)\n(:init {' '.join(facts)})\n(:goal (car-at l-1-{last})))\n"
    return domain, problem, "move-car\n" if unfair else ""


def rescue(units, unfair=False):
    """As many fires and victims as units, on a ring of places: fires are put out and victims treated, each of which may fail; the
    hospital always helps. With an opponent who picks what a treatment does, all victims go to the hospital."""
    domain = """(define (domain rescue) (:requirements :adl :non-deterministic)
(:types location unit victim - object engine ambulance - unit)
(:predicates (unit-at ?u - unit ?l - location) (road ?l ?m - location) (hydrant ?l - location) (hospital ?l - location)
 (fire ?l - location) (water ?e - engine) (victim-at ?v - victim ?l - location) (aboard ?v - victim ?a - ambulance)
 (hurt ?v - victim) (full ?a - ambulance))
(:action drive :parameters (?u - unit ?l ?m - location) :precondition (and (unit-at ?u ?l) (road ?l ?m))
 :effect (and (not (unit-at ?u ?l)) (unit-at ?u ?m)))
(:action fill :parameters (?e - engine ?l - location) :precondition (and (unit-at ?e ?l) (hydrant ?l)) :effect (water ?e))
(:action extinguish :parameters (?e - engine ?l - location)
 :precondition (and (unit-at ?e ?l) (water ?e) (fire ?l)) :effect (and (not (water ?e)) (oneof (not (fire ?l)) ())))
(:action treat :parameters (?v - victim ?u - unit ?l - location)
 :precondition (and (victim-at ?v ?l) (not (fire ?l)) (unit-at ?u ?l)) :effect (oneof (not (hurt ?v)) ()))
(:action load :parameters (?v - victim ?a - ambulance ?l - location)
 :precondition (and (victim-at ?v ?l) (unit-at ?a ?l) (not (fire ?l)) (not (full ?a)))
 :effect (and (not (victim-at ?v ?l)) (aboard ?v ?a) (full ?a)))
(:action unload :parameters (?v - victim ?a - ambulance ?l - location)
 :precondition (and (aboard ?v ?a) (unit-at ?a ?l) (hospital ?l))
 :effect (and (not (aboard ?v ?a)) (not (full ?a)) (victim-at ?v ?l) (not (hurt ?v)))))
"""
    size = units + 2
    names = " ".join(f"p{i}" for i in range(size))
    engines = " ".join(f"e{i}" for i in range((units + 1) // 2))
    ambulances = " ".join(f"a{i}" for i in range(units // 2 or 1))
    victims = " ".join(f"v{i}" for i in range(units))
    facts = [f"(road p{i} p{(i + 1) % size}) (road p{(i + 1) % size} p{i})" for i in range(size)]
    facts += [f"(unit-at {unit} p0)" for unit in engines.split() + ambulances.split()] + ["(hydrant p0) (hospital p1)"]
    facts += [f"(fire p{i + 2}) (victim-at v{i} p{i + 2}) (hurt v{i})" for i in range(units)]
    problem = f"(define (problem rescue) (:domain rescue) (:objects {names} - location {engines} - engine {ambulances} - ambulance {victims} - victim)\n" \
        f"(:init {' '.join(facts)})\n(:goal (and (forall (?l - location) (not (fire ?l))) (forall (?v - victim) (not (hurt ?v))))))\n"
    return domain, problem, "treat\n" if unfair else ""


def doors(count, unfair=False):
    """Rooms in a row with a door between each two: entering a room opens or closes the door ahead by chance, or by an opponent; a
    closed door can be knocked open."""
    domain = """(define (domain doors) (:requirements :adl :non-deterministic)
(:types room)
(:predicates (at ?r - room) (next ?r ?s - room) (open ?r - room))
(:action enter :parameters (?r ?s - room) :precondition (and (at ?r) (next ?r ?s) (open ?r))
 :effect (and (not (at ?r)) (at ?s) (oneof (open ?s) (not (open ?s)))))
(:action knock :parameters (?r - room) :precondition (and (at ?r) (not (open ?r))) :effect (open ?r)))
"""
    names = " ".join(f"r{i}" for i in range(count + 1))
    steps = " ".join(f"(next r{i} r{i + 1})" for i in range(count))
    problem = f"(define (problem doors) (:domain doors) (:objects {names} - room)\n(:init (at r0) {steps}) (:goal (at r{count})))\n"
    return domain, problem, "enter\n" if unfair else ""


def numbered(letter, count):
    """The names of so many objects."""
    return [f"{letter}{i}" for i in range(count)]


def locks(digits):
    """A lock with so many digits, each of which is turned forward by one place or by two, as chance has it. So a digit that went
    past its place has to be turned once around."""
    domain = """(define (domain locks) (:requirements :typing :non-deterministic)
(:types digit value)
(:predicates (shows ?d - digit ?v - value) (next ?v ?w - value))
(:action turn :parameters (?d - digit ?v ?w ?x - value) :precondition (and (shows ?d ?v) (next ?v ?w) (next ?w ?x))
 :effect (and (not (shows ?d ?v)) (oneof (shows ?d ?w) (shows ?d ?x)))))
"""
    nexts = " ".join(f"(next v{i} v{(i + 1) % 10})" for i in range(10))
    shown = " ".join(f"(shows {digit} v0)" for digit in numbered("d", digits))
    goal = " ".join(f"(shows d{i} v{(3 * i + 7) % 10})" for i in range(digits))
    problem = f"(define (problem lock) (:domain locks) (:objects {' '.join(numbered('d', digits))} - digit {' '.join(numbered('v', 10))} - value)\n" \
        f"(:init {shown} {nexts})\n(:goal (and {goal})))\n"
    return domain, problem, ""


def climbers(count):
    """Climbers on roofs: each one calls until a ladder comes, which may tip over on the way down. Whoever jumps may be hurt, and
    that is never made good."""
    domain = """(define (domain climbers) (:requirements :typing :negative-preconditions :non-deterministic)
(:types climber)
(:predicates (on-roof ?c - climber) (on-ground ?c - climber) (ladder ?c - climber) (hurt ?c - climber))
(:action call :parameters (?c - climber) :precondition (and (on-roof ?c) (not (ladder ?c))) :effect (oneof (ladder ?c) ()))
(:action climb :parameters (?c - climber) :precondition (and (on-roof ?c) (ladder ?c))
 :effect (oneof (and (not (on-roof ?c)) (on-ground ?c)) (not (ladder ?c))))
(:action jump :parameters (?c - climber) :precondition (on-roof ?c)
 :effect (and (not (on-roof ?c)) (on-ground ?c) (oneof () (hurt ?c)))))
"""
    names = numbered("c", count)
    problem = f"(define (problem roofs) (:domain climbers) (:objects {' '.join(names)} - climber)\n" \
        f"(:init {' '.join(f'(on-roof {name})' for name in names)})\n(:goal (forall (?c - climber) (and (on-ground ?c) (not (hurt ?c))))))\n"
    return domain, problem, ""


def buses(count):
    """Travelers without money, each of whom needs a fare of three coins: a coin is earned, and a bet wins or loses one."""
    domain = """(define (domain buses) (:requirements :typing :non-deterministic)
(:types traveler amount) (:constants none one fare - amount)
(:predicates (has ?t - traveler ?a - amount) (next ?a ?b - amount) (aboard ?t - traveler))
(:action earn :parameters (?t - traveler) :precondition (has ?t none) :effect (oneof (and (not (has ?t none)) (has ?t one)) ()))
(:action bet :parameters (?t - traveler ?a ?b ?c - amount) :precondition (and (has ?t ?b) (next ?a ?b) (next ?b ?c))
 :effect (and (not (has ?t ?b)) (oneof (has ?t ?c) (has ?t ?a))))
(:action ride :parameters (?t - traveler) :precondition (has ?t fare) :effect (and (not (has ?t fare)) (aboard ?t))))
"""
    names = numbered("t", count)
    problem = f"(define (problem stops) (:domain buses) (:objects {' '.join(names)} - traveler two - amount)\n" \
        f"(:init {' '.join(f'(has {name} none)' for name in names)} (next none one) (next one two) (next two fare))\n" \
        "(:goal (forall (?t - traveler) (aboard ?t))))\n"
    return domain, problem, ""


def rivers(count):
    """People at rivers of their own, each with rocks to an island: one may come to it, across, or nowhere, and whoever wades from
    the island may be swept back. Whoever swims may drown."""
    domain = """(define (domain rivers) (:requirements :typing :non-deterministic)
(:types person)
(:predicates (near ?p - person) (on-island ?p - person) (far ?p - person) (drowned ?p - person))
(:action hop :parameters (?p - person) :precondition (near ?p)
 :effect (oneof (and (not (near ?p)) (on-island ?p)) (and (not (near ?p)) (far ?p)) ()))
(:action wade :parameters (?p - person) :precondition (on-island ?p)
 :effect (and (not (on-island ?p)) (oneof (far ?p) (near ?p))))
(:action swim :parameters (?p - person) :precondition (near ?p)
 :effect (and (not (near ?p)) (oneof (far ?p) (drowned ?p)))))
"""
    names = numbered("p", count)
    problem = f"(define (problem banks) (:domain rivers) (:objects {' '.join(names)} - person)\n" \
        f"(:init {' '.join(f'(near {name})' for name in names)})\n(:goal (forall (?p - person) (far ?p))))\n"
    return domain, problem, ""


def rooms(count):
    """Rooms that are swept and then waxed: sweeping may leave a room as it is, and waxing may raise the dust again."""
    domain = """(define (domain rooms) (:requirements :typing :non-deterministic)
(:types room)
(:predicates (dusty ?r - room) (swept ?r - room) (waxed ?r - room))
(:action sweep :parameters (?r - room) :precondition (dusty ?r) :effect (oneof (and (not (dusty ?r)) (swept ?r)) ()))
(:action wax :parameters (?r - room) :precondition (swept ?r)
 :effect (and (not (swept ?r)) (oneof (waxed ?r) (dusty ?r)))))
"""
    names = numbered("r", count)
    problem = f"(define (problem house) (:domain rooms) (:objects {' '.join(names)} - room)\n" \
        f"(:init {' '.join(f'(dusty {name})' for name in names)})\n(:goal (forall (?r - room) (waxed ?r))))\n"
    return domain, problem, ""


def machines(count):
    """Machines to be started, each of which an opponent may break instead. A part repairs one, and there is one part too few."""
    domain = """(define (domain machines) (:requirements :typing :negative-preconditions :non-deterministic)
(:types machine part)
(:predicates (running ?m - machine) (broken ?m - machine) (used ?p - part))
(:action start :parameters (?m - machine) :precondition (and (not (running ?m)) (not (broken ?m)))
 :effect (oneof (running ?m) (broken ?m)))
(:action repair :parameters (?m - machine ?p - part) :precondition (and (broken ?m) (not (used ?p)))
 :effect (and (not (broken ?m)) (running ?m) (used ?p))))
"""
    problem = f"(define (problem hall) (:domain machines)\n" \
        f"(:objects {' '.join(numbered('m', count))} - machine {' '.join(numbered('p', count - 1))} - part)\n" \
        "(:init) (:goal (forall (?m - machine) (running ?m))))\n"
    return domain, problem, "start\n"


def bridge(stones):
    """A bridge that has to be crossed and may fall under whoever crosses it. Nothing that is done before, with any of the stones on
    the bank, makes it safe."""
    domain = """(define (domain bridge) (:requirements :typing :negative-preconditions :non-deterministic)
(:types place stone) (:constants bank head far - place)
(:predicates (at ?p - place) (path ?p ?q - place) (carries ?s - stone) (fell))
(:action walk :parameters (?p ?q - place) :precondition (and (at ?p) (path ?p ?q)) :effect (and (not (at ?p)) (at ?q)))
(:action take :parameters (?s - stone) :precondition (and (at bank) (not (carries ?s))) :effect (carries ?s))
(:action drop :parameters (?s - stone) :precondition (and (at bank) (carries ?s)) :effect (not (carries ?s)))
(:action cross :precondition (at head) :effect (and (not (at head)) (oneof (at far) (fell)))))
"""
    problem = f"(define (problem gorge) (:domain bridge) (:objects {' '.join(numbered('s', stones))} - stone)\n" \
        "(:init (at bank) (path bank head) (path head bank)) (:goal (at far)))\n"
    return domain, problem, ""


def islands(count):
    """A chain of islands with a monkey on each bridge, who leaves it for a banana, and one banana too few. Whoever swims may
    drown."""
    domain = """(define (domain islands) (:requirements :typing :negative-preconditions :non-deterministic)
(:types island banana)
(:predicates (at ?i - island) (bridge ?i ?j - island) (guarded ?i - island) (lies ?b - banana ?i - island) (carries ?b - banana))
(:action take :parameters (?b - banana ?i - island) :precondition (and (at ?i) (lies ?b ?i))
 :effect (and (not (lies ?b ?i)) (carries ?b)))
(:action lure :parameters (?b - banana ?i - island) :precondition (and (at ?i) (guarded ?i) (carries ?b))
 :effect (oneof (and (not (guarded ?i)) (not (carries ?b))) ()))
(:action cross :parameters (?i ?j - island) :precondition (and (at ?i) (bridge ?i ?j) (not (guarded ?i)))
 :effect (and (not (at ?i)) (at ?j)))
(:action swim :parameters (?i ?j - island) :precondition (and (at ?i) (bridge ?i ?j)) :effect (and (not (at ?i)) (oneof (at ?j) ()))))
"""
    bridges = " ".join(f"(bridge i{i} i{i + 1}) (guarded i{i})" for i in range(count))
    lying = " ".join(f"(lies {banana} i0)" for banana in numbered("b", count - 1))
    problem = f"(define (problem monkeys) (:domain islands)\n" \
        f"(:objects {' '.join(numbered('i', count + 1))} - island {' '.join(numbered('b', count - 1))} - banana)\n" \
        f"(:init (at i0) {bridges} {lying}) (:goal (at i{count})))\n"
    return domain, problem, ""


def beam(places):
    """A beam of so many places above the ground. Each step on it may end in a fall, and the only ladder is at its near end, so a policy
    has two rules for each place, which differ in few literals."""
    domain = """(define (domain beam) (:requirements :typing :negative-preconditions :non-deterministic)
(:types place) (:constants ladder - place)
(:predicates (up) (at ?p - place) (next ?p ?q - place))
(:action climb :precondition (and (not (up)) (at ladder)) :effect (up))
(:action step :parameters (?p ?q - place) :precondition (and (up) (at ?p) (next ?p ?q))
 :effect (oneof (and (not (at ?p)) (at ?q)) (not (up))))
(:action return :parameters (?p ?q - place) :precondition (and (not (up)) (at ?q) (next ?p ?q))
 :effect (and (not (at ?q)) (at ?p))))
"""
    names = ["ladder", *numbered("p", places - 1)]
    ways = " ".join(f"(next {near} {far})" for near, far in zip(names, names[1:]))
    problem = f"(define (problem over) (:domain beam) (:objects {' '.join(names[1:])} - place)\n" \
        f"(:init (at ladder) {ways})\n(:goal (and (up) (at {names[-1]}))))\n"
    return domain, problem, ""


def forest(side):
    """A square forest: each second column is a thicket with one gap, at its far end and at its near end by turns. Whoever pushes into
    a thicket comes through, or a tree falls there and bars that way for good, so each way but the detour may be lost."""
    domain = """(define (domain forest) (:requirements :typing :negative-preconditions :non-deterministic)
(:types cell)
(:predicates (at ?c - cell) (beside ?c ?d - cell) (thick ?c - cell) (barred ?c - cell))
(:action walk :parameters (?c ?d - cell) :precondition (and (at ?c) (beside ?c ?d) (not (thick ?d)))
 :effect (and (not (at ?c)) (at ?d)))
(:action push :parameters (?c ?d - cell) :precondition (and (at ?c) (beside ?c ?d) (thick ?d) (not (barred ?d)))
 :effect (oneof (and (not (at ?c)) (at ?d)) (barred ?d))))
"""
    cells = [(x, y) for x in range(side) for y in range(side)]
    gaps = {x: side - 1 if x % 4 == 1 else 0 for x in range(1, side, 2)}
    facts = [f"(thick c{x}-{y})" for x, y in cells if x in gaps and y != gaps[x]]
    for x, y in cells:
        steps = [(x + 1, y), (x - 1, y), (x, y + 1), (x, y - 1)]
        facts += [f"(beside c{x}-{y} c{a}-{b})" for a, b in steps if 0 <= a < side and 0 <= b < side]
    problem = f"(define (problem woods) (:domain forest) (:objects {' '.join(f'c{x}-{y}' for x, y in cells)} - cell)\n" \
        f"(:init (at c0-0) {' '.join(facts)})\n(:goal (at c{side - 1}-0)))\n"
    return domain, problem, ""


def gates(count):
    """Rooms in a row with a door between each two: whenever a room is entered, an opponent opens or closes any one of the doors. A
    closed door can be knocked open."""
    rooms_in_row = numbered("r", count)
    moves = " ".join(f"(open {room}) (not (open {room}))" for room in rooms_in_row)
    domain = f"""(define (domain gates) (:requirements :typing :negative-preconditions :non-deterministic)
(:types room) (:constants {' '.join(rooms_in_row)} - room)
(:predicates (at ?r - room) (next ?r ?s - room) (open ?r - room))
(:action enter :parameters (?r ?s - room) :precondition (and (at ?r) (next ?r ?s) (open ?r))
 :effect (and (not (at ?r)) (at ?s) (oneof () {moves})))
(:action knock :parameters (?r - room) :precondition (and (at ?r) (not (open ?r))) :effect (open ?r)))
"""
    steps = " ".join(f"(next r{i} r{i + 1})" for i in range(count))
    problem = f"(define (problem gates) (:domain gates) (:objects r{count} - room)\n(:init (at r0) {steps}) (:goal (at r{count})))\n"
    return domain, problem, "enter\n"


def example_domain(name):
    """The text of the domain of an example."""
    with open(os.path.join(EXAMPLES, name, f"{name}.d"), encoding="ascii") as file:
        return file.read()


def lifts(floors):
    """A building with coins to collect, as many as floors, and lifts at some places. On each floor but the lowest, one place has a gate:
    whoever walks on from it may find himself at the entrance again."""
    domain = """(define (domain lifts) (:requirements :typing :negative-preconditions :non-deterministic)
(:types lift floor place coin) (:constants f0 - floor p0 - place)
(:predicates (above ?f ?g - floor) (beside ?p ?q - place) (lift-at ?l - lift ?f - floor) (at ?f - floor ?p - place)
 (shaft ?l - lift ?p - place) (inside ?l - lift) (gate ?f - floor ?p - place) (lies ?c - coin ?f - floor ?p - place) (have ?c - coin))
(:action ride-up :parameters (?l - lift ?f ?g - floor) :precondition (and (above ?g ?f) (lift-at ?l ?f))
 :effect (and (lift-at ?l ?g) (not (lift-at ?l ?f))))
(:action ride-down :parameters (?l - lift ?f ?g - floor) :precondition (and (above ?f ?g) (lift-at ?l ?f))
 :effect (and (lift-at ?l ?g) (not (lift-at ?l ?f))))
(:action enter :parameters (?l - lift ?f - floor ?p - place) :precondition (and (at ?f ?p) (lift-at ?l ?f) (shaft ?l ?p))
 :effect (and (inside ?l) (not (at ?f ?p))))
(:action leave :parameters (?l - lift ?f - floor ?p - place) :precondition (and (inside ?l) (lift-at ?l ?f) (shaft ?l ?p))
 :effect (and (at ?f ?p) (not (inside ?l))))
(:action pass :parameters (?f - floor ?p ?q - place) :precondition (and (at ?f ?p) (beside ?p ?q) (gate ?f ?p))
 :effect (and (not (at ?f ?p)) (oneof (at ?f ?q) (at f0 p0))))
(:action walk :parameters (?f - floor ?p ?q - place) :precondition (and (at ?f ?p) (beside ?p ?q) (not (gate ?f ?p)))
 :effect (and (not (at ?f ?p)) (at ?f ?q)))
(:action collect :parameters (?c - coin ?f - floor ?p - place) :precondition (and (lies ?c ?f ?p) (at ?f ?p))
 :effect (and (have ?c) (not (lies ?c ?f ?p)))))
"""
    drawn = random.Random(floors)
    storeys, spots = numbered("f", floors), numbered("p", floors // 2 + 1)
    cabins, coins = numbered("l", max(1, floors // 3)), numbered("c", floors)
    facts = [f"(above {high} {low})" for low, high in zip(storeys, storeys[1:])]
    facts += [f"(beside {p} {q}) (beside {q} {p})" for p, q in zip(spots, spots[1:])]
    facts += [f"(lift-at {cabin} {drawn.choice(storeys)}) (shaft {cabin} {drawn.choice(spots)})" for cabin in cabins]
    facts += [f"(gate {storey} {drawn.choice(spots)})" for storey in storeys[1:]]
    facts += [f"(lies {coin} {drawn.choice(storeys)} {drawn.choice(spots)})" for coin in coins]
    problem = f"(define (problem coins) (:domain lifts) (:objects {' '.join(storeys[1:])} - floor {' '.join(spots[1:])} - place " \
        f"{' '.join(cabins)} - lift {' '.join(coins)} - coin)\n(:init (at f0 p0) {' '.join(facts)})\n" \
        f"(:goal (and {' '.join(f'(have {coin})' for coin in coins)})))\n"
    return domain, problem, ""


def mines(count, beams=None):
    """The miner of examples/ with so many mines: each second nugget is wanted, and whoever digs in a mine without a beam may be buried.
    With fewer beams, each mine has a nugget, and all are wanted."""
    drawn = random.Random(count)
    pits = numbered("m", count)
    wanted = range(0, count, 2) if beams is None else range(count)
    facts = [f"(path m{drawn.randrange(max(0, i - 3), i)} m{i})" for i in range(1, count)]
    facts += [f"(vein n{i} {drawn.choice(pits) if beams is None else pits[i]})" for i in range(count)]
    facts += [f"(beam-at b{i} {drawn.choice([*pits, 'hut'])})" for i in range(count if beams is None else beams)]
    problem = f"(define (problem nuggets) (:domain miner) (:objects hut - camp {' '.join(pits)} - mine " \
        f"{' '.join(numbered('n', count))} - nugget {' '.join(numbered('b', count))} - beam)\n" \
        f"(:init (miner-at hut) (path hut m0) {' '.join(facts)})\n" \
        f"(:goal (and (miner-at hut) (not (buried)) {' '.join(f'(have n{i})' for i in wanted)})))\n"
    return example_domain("miner"), problem, ""


def flights(count):
    """The travelers of examples/zeno: so many cities and travelers. A plane may be sent on to an alternate city."""
    drawn = random.Random(count)
    cities, planes, taxis = numbered("c", count), numbered("j", max(1, count // 4)), numbered("t", max(1, count // 4))
    facts = ["(next empty half) (next half full) (pump c0)"]
    facts += [f"(road c{drawn.randrange(i)} c{i})" for i in range(1, count)]
    facts += [f"(at {plane} {drawn.choice(cities)}) (fuel {plane} half)" for plane in planes]
    facts += [f"(at {taxi} {drawn.choice(cities)})" for taxi in taxis]
    facts += [f"(alternate {city} {drawn.choice(cities)})" + f" (pump {city})" * (drawn.random() < 0.4) for city in cities]
    facts += [f"(at {person} {drawn.choice(cities)})" for person in numbered("q", count)]
    goals = [f"(at {person} {drawn.choice(cities)})" for person in numbered("q", count)]
    problem = f"(define (problem travelers) (:domain zeno) (:objects {' '.join(cities)} - city {' '.join(planes)} - plane " \
        f"{' '.join(taxis)} - taxi {' '.join(numbered('q', count))} - person half - level)\n" \
        f"(:init {' '.join(facts)})\n(:goal (and {' '.join(goals)})))\n"
    return example_domain("zeno"), problem, ""


def chase(count, cops=2):
    """A robber on a ring of so many places, who moves as an opponent likes, and cops, one of whom moves at a time: two catch him, one
    does not."""
    domain = """(define (domain chase) (:requirements :typing :negative-preconditions :disjunctive-preconditions :non-deterministic)
(:types place cop)
(:predicates (at ?c - cop ?p - place) (robber ?p - place) (next ?p ?q - place) (turn) (caught))
(:action step :parameters (?c - cop ?p ?q - place) :precondition (and (turn) (at ?c ?p) (or (next ?p ?q) (next ?q ?p)))
 :effect (and (not (at ?c ?p)) (at ?c ?q) (not (turn))))
(:action grab :parameters (?c - cop ?p - place) :precondition (and (at ?c ?p) (robber ?p)) :effect (caught))
(:action flee :parameters (?p ?q ?r - place) :precondition (and (not (turn)) (robber ?p) (next ?q ?p) (next ?p ?r))
 :effect (and (turn) (not (robber ?p)) (oneof (robber ?q) (robber ?r)))))
"""
    ring = [f"(next p{i} p{(i + 1) % count})" for i in range(count)]
    force = [f"(at k{i} p{i})" for i in range(cops)]
    problem = f"(define (problem chase) (:domain chase) (:objects {' '.join(numbered('p', count))} - place " \
        f"{' '.join(numbered('k', cops))} - cop)\n(:init (turn) (robber p{count // 2 + 1}) {' '.join(ring + force)}) (:goal (caught)))\n"
    return domain, problem, "flee\n"


@dataclasses.dataclass(frozen=True)
class Task:
    """A task of a kind: how large it is, and what makes its texts."""

    kind: str
    size: str
    texts: typing.Callable[[], tuple[str, str, str]]

    @property
    def name(self):
        head, comma, tail = self.kind.partition(",")
        return f"{head} {self.size}{comma}{tail}"

    @property
    def file_name(self):
        """The name in words that are joined by `-`."""
        return "-".join(re.findall(r"\w+", self.name))

    def write(self, folder, files):
        """Writes the texts into three files of a folder."""
        for file, text in zip(files, self.texts()):
            with open(os.path.join(folder, file), "w", encoding="ascii") as out:
                out.write(text)


def sized(kind, make, sizes, join=" ", **how):
    """Tasks of a kind: the function that makes them takes a number, or several, as a size."""
    rows = [size if isinstance(size, tuple) else (size,) for size in sizes]
    return [Task(kind, join.join(map(str, row)), lambda row=row: make(*row, **how)) for row in rows]


# Each kind at three sizes or more, so that the smallest needs little of any planner.
TASKS = [
    *sized("counter", counter, (8, 14, 16, 17)),
    *sized("counter, unfair", counter, (8, 12, 16), unfair=True),
    *sized("grid", grid, ((3, 8), (4, 12), (5, 13)), " by "),
    *sized("grid, refused", grid, ((3, 8), (4, 12), (5, 13)), " by ", goal_in_reach=False),
    *sized("places", places, (100, 1000, 4000)),
    *sized("places, refused", places, (100, 1000, 4000), goal_in_reach=False),
    *sized("wide", wide, ((8, 50), (14, 50), (14, 5000)), " with "),
    *sized("lamps", lamps, (6, 12, 40, 100)),
    *sized("blocks", blocks, (6, 8, 12, 20, 40, 60)),
    *sized("blocks, refused", blocks, (6, 7, 8), goal_in_reach=False),
    *sized("roads", roads, (3, 5, 6, 10, 20, 40)),
    *sized("roads, unfair", roads, (3, 5, 10, 20), unfair=True),
    *sized("rescue", rescue, (2, 4, 6, 8, 10)),
    *sized("rescue, unfair", rescue, (2, 4, 6, 8), unfair=True),
    *sized("doors", doors, (12, 20, 40)),
    *sized("doors, unfair", doors, (12, 20, 40), unfair=True),
    *sized("gates", gates, (4, 8, 16)),
    *sized("locks", locks, (2, 4, 12, 30)),
    *sized("climbers", climbers, (3, 5, 20, 80)),
    *sized("buses", buses, (3, 5, 20, 80)),
    *sized("rivers", rivers, (3, 6, 20, 80)),
    *sized("rooms", rooms, (4, 8, 30, 80)),
    *sized("forest", forest, (3, 5, 9, 15)),
    *sized("machines", machines, (3, 5, 7)),
    *sized("bridge", bridge, (4, 12, 40)),
    *sized("islands", islands, (3, 6, 9, 10)),
    *sized("beam", beam, (255, 1023, 2047)),
    *sized("lifts", lifts, (8, 16, 24)),
    *sized("mines", mines, (10, 20, 30)),
    *sized("mines, refused", lambda count: mines(count, count - 1), (4, 6, 8)),
    *sized("flights", flights, (6, 9, 12)),
    *sized("chase", chase, (12, 30, 60)),
    *sized("chase, refused", chase, (30, 60, 200), cops=1),
]


def main():
    ap = argparse.ArgumentParser(description=__doc__, formatter_class=argparse.RawDescriptionHelpFormatter)
    ap.add_argument("--write", metavar="FOLDER", required=True)
    ap.add_argument("words", nargs="*")
    given = ap.parse_args()
    for task in TASKS:
        if not given.words or any(word in task.name for word in given.words):
            name = task.file_name
            os.makedirs(os.path.join(given.write, name), exist_ok=True)
            task.write(os.path.join(given.write, name), (f"{name}.d", f"{name}.p", f"{name}.unfair"))


if __name__ == "__main__":
    main()
