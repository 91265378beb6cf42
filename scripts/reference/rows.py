#!/usr/bin/env python3
"""Worked examples of validity, and small cases of each rule; prints what differs."""

import sys

from check import verdict
from reader import Fault, read_domain, read_problem
from task import Task

MATCH = """
(define (domain match)
 (:requirements :typing :durative-actions)
 (:types match fuse)
 (:predicates (light) (unused ?m - match) (mended ?f - fuse))
 (:durative-action light-match :parameters (?m - match)
  :duration (= ?duration 8)
  :condition (and (at start (unused ?m)))
  :effect (and (at start (not (unused ?m))) (at start (light))
               (at end (not (light)))))
 (:durative-action mend-fuse :parameters (?f - fuse)
  :duration (= ?duration 5)
  :condition (over all (light))
  :effect (at end (mended ?f))))
""", """
(define (problem p) (:domain match) (:objects m1 - match f1 - fuse)
 (:init (unused m1)) (:goal (mended f1)))
"""
TOGGLE = """
(define (domain toggle)
 (:predicates (p) (q) (done))
 (:action need :parameters () :precondition (p) :effect (done))
 (:action drop :parameters () :effect (not (p)))
 (:action give :parameters () :effect (q))
 (:durative-action watch :parameters () :duration (= ?duration 5)
  :condition (over all (or (p) (q))) :effect (at end (done))))
""", "(define (problem p) (:domain toggle) (:init (p)) (:goal (done)))"
TANK = """
(define (domain tank)
 (:functions (level))
 (:action fill-a :parameters () :effect (increase (level) 1))
 (:action fill-b :parameters () :effect (increase (level) 2))
 (:durative-action hold :parameters () :duration (>= ?duration 1)
  :condition (over all (<= (level) 3)) :effect ()))
""", """
(define (problem p) (:domain tank)
 (:init (= (level) 0)) (:goal (>= (level) 3)))
"""
CHARGE = """
(define (domain charge)
 (:predicates (full))
 (:functions (e))
 (:durative-action charge :parameters ()
  :duration (and (>= ?duration 2) (<= ?duration 6))
  :effect (at end (increase (e) (* ?duration 2))))
 (:durative-action rest :parameters ()
  :duration (and (>= ?duration 2) (<= ?duration 6))
  :effect (at end (full))))
""", """
(define (problem p) (:domain charge)
 (:init (= (e) 0)) (:goal (or (>= (e) 8) (full))))
"""
MIX = """
(define (domain mix)
 (:types base - object leaf - base)
 (:predicates (p ?x - leaf) (r))
 (:functions (f) (g) (h))
 (:action two-sets :effect (forall (?x - leaf) (assign (f) 1)))
 (:action set-and-add :effect (and (assign (f) 1) (increase (f) 1)))
 (:action scale :effect (scale-up (f) 3))
 (:action scale-h :effect (scale-up (h) 3))
 (:action add :effect (increase (f) (g)))
 (:action take :effect (decrease (f) 2))
 (:action add-h :effect (increase (f) (h)))
 (:action set-h :effect (assign (h) 4))
 (:action set-g :effect (assign (g) 7))
 (:action both :effect (and (r) (not (r))))
 (:action look-h :precondition (or (r) (= (h) 0)) :effect (r))
 (:action flip :parameters (?x - leaf) :effect (not (p ?x)))
 (:action need :precondition (exists (?x - leaf) (p ?x)) :effect ())
 (:durative-action late :duration (and (at start (>= ?duration (- (g) 3))) (<= ?duration (h)))
   :condition (and (forall (?x - leaf) (at end (imply (p ?x) (r)))) (at start ()))
   :effect (at start (increase (g) ?duration)))
 (:durative-action early :duration (<= ?duration (* (g) (- 2))) :effect ()))
""", """
(define (problem p) (:domain mix) (:objects a b - leaf c - base)
 (:init (= (f) 10) (= (g) 5) (p a)) (:goal (and)))
"""


def task(texts, goal=None):
    d = read_domain(texts[0].encode())
    p = texts[1] if goal is None else texts[1].replace("(:goal (done))", f"(:goal {goal})")
    return Task(d, read_problem(p.encode(), d))


ROWS = [
    (MATCH, "0: (light-match m1) [8]; 0: (mend-fuse f1) [5]", 1, "valid"),
    (MATCH, "0: (light-match m1) [8]; 3: (mend-fuse f1) [5]", 1, "valid"),
    (MATCH, "0: (light-match m1) [8]; 4: (mend-fuse f1) [5]", 1, "invalid 8 over-all 1"),
    (TOGGLE, "3: (need); 3: (drop)", 1, "invalid 3 interferes 0 1"),
    (TOGGLE, "3: (need); 4: (drop)", 1, "valid"),
    (TOGGLE, "3: (drop); 4: (need)", 1, "invalid 4 condition 1"),
    (TOGGLE, "0: (watch) [5]; 2: (give); 3: (drop)", 1, "valid"),
    (TOGGLE, "0: (watch) [5]; 1: (give); 1: (drop)", 1, "valid"),
    (TOGGLE, "", 1, "invalid 0 goal"),
    (TANK, "1: (fill-a); 1: (fill-b)", 1, "valid"),
    (TANK, "0: (hold) [4]; 1: (fill-a); 1: (fill-b)", 1, "valid"),
    (CHARGE, "0: (charge) [4]", 1, "valid"),
    (CHARGE, "0: (rest) [4]", 1, "valid"),
    (CHARGE, "0: (charge) [7]", 1, "invalid 0 duration 0"),
    (CHARGE, "0.001: (charge) [2.000]", 1000, "invalid 2001 goal"),
    (CHARGE, "0.001: (charge) [4.000]", 1000, "valid"),
    (CHARGE, "0.001: (charge) [4.5]", 1000, "invalid 4501 undefined 1"),
    (CHARGE, "0.0005: (charge) [4]", 1000, "fault plan 4 not-ticks 1"),
    (CHARGE, "0: (charge)", 1, "fault plan 6 no-duration 1"),
    (CHARGE, "x: (rest) [2]", 1, "fault plan 2 line 1"),
    (CHARGE, "0: (dash) [1]", 1, "fault plan 3 no-action 1"),
    (CHARGE, "0: (rest) [0]", 1, "invalid 0 duration 0"),
    (CHARGE, "4: (rest) [999999]", 1, "fault plan 7 horizon 1"),
    (CHARGE, ";".join(["0: (rest) [2]"] * 513), 1, "fault plan 5 too-many"),
    (CHARGE, ";".join(["0: (rest) [2]"] * 512), 1, "valid"),
    # Mixtures of writes, and what counts as reading.
    (MIX, "0: (two-sets)", 1, "invalid 0 clash 0"),
    (MIX, "0: (set-and-add)", 1, "invalid 0 clash 0"),
    (MIX, "0: (set-and-add); 0: (scale-h)", 1, "invalid 0 undefined 1"),
    (MIX, "0: (add); 0: (take)", 1, "valid"),
    (MIX, "0: (add); 0: (scale)", 1, "invalid 0 interferes 0 1"),
    (MIX, "0: (add); 0: (set-g)", 1, "invalid 0 interferes 0 1"),
    (MIX, "0: (add-h)", 1, "invalid 0 undefined 0"),
    (MIX, "0: (set-h); 1: (add-h); 1: (take)", 1, "valid"),
    (MIX, "0: (set-h); 0: (add-h)", 1, "invalid 0 undefined 1"),
    (MIX, "0: (both); 1: (look-h)", 1, "invalid 1 condition 1"),
    (MIX, "0: (set-h); 1: (both); 2: (look-h)", 1, "valid"),
    (MIX, "0: (both); 0: (both)", 1, "invalid 0 interferes 0 1"),
    (MIX, "0: (flip b); 0: (need)", 1, "invalid 0 interferes 0 1"),
    (MIX, "0: (flip c)", 1, "fault plan 3 no-action 1"),
    (MIX, "0: (late) [3]", 1, "invalid 0 undefined 0"),
    (MIX, "0: (set-h); 1: (late) [3]", 1, "invalid 4 condition 2"),
    (MIX, "0: (set-h); 1: (late) [5]", 1, "invalid 1 duration 1"),
    (MIX, "0: (set-h); 1: (late) [3]; 2: (both)", 1, "valid"),
    (MIX, "0: (set-h); 1: (late) [3]; 4: (both)", 1, "invalid 4 condition 2"),
    (MIX, "0: (set-h); 1: (late) [3]; 1: (late) [3]", 1, "invalid 1 interferes 1 3"),
    (MIX, "0: (early) [1]", 1, "invalid 0 duration 0"),
    (MIX, "7: (add); 5: (add) [x]", 1, "fault plan 2 line 2"),
    (MIX, "7: (add) [0.00001]; 5: (ADD)", 1, "valid"),
]

DOMAINS = [
    ("(define (domain d)", "fault domain 2 text 4 unclosed 0"),
    ("(define (domain d)) x", "fault domain 2 text 5 extra 20"),
    ("", "fault domain 2 text 7 empty"),
    ("(" * 65 + ")" * 65, "fault domain 2 text 6 depth 64"),
    ("(define (domain d) (:functions (f)) (:action a :precondition (= (f) 2.5)))",
     "fault domain 7 left-out 68 number"),
    ("(define (domain d) (:predicates (p)) (:action a :effect (when (p) (p))))",
     "fault domain 7 left-out 56 when"),
    ("(define (domain d) (:types a - b b - a))", "fault domain 6 types 27"),
    ("(define (domain d) (:types a - b a))", "fault domain 5 twice 33"),
    ("(define (domain d) (:predicates (p ?x - z)))", "fault domain 4 unknown 40"),
    ("(define (domain d) (:action a :effect (p)))", "fault domain 4 unknown 39"),
]


def main():
    bad = 0

    def compare(what, got, wanted):
        nonlocal bad
        if got != wanted:
            bad += 1
            print(f"{what!r}: {got}, wanted {wanted}")

    for texts, plan, scale, wanted in ROWS:
        text = "\n".join(line.strip() for line in plan.split(";"))
        compare(text, verdict(task(texts), text.encode(), scale, 1_000_000)[0], wanted)
    compare("empty", verdict(task(TOGGLE, "(p)"), b"", 1, 1_000_000)[0], "valid")
    compare("h5", verdict(task(CHARGE), b"4: (rest) [2]", 1, 5)[0], "fault plan 7 horizon 1")
    for text, wanted in DOMAINS:
        try:
            read_domain(text.encode())
            got = "read"
        except Fault as f:
            got = f.line
        compare(text, got, wanted)
    for text in ("(define (domain d))", "(DEFINE (domain D) (:TYPES object a - object))"):
        read_domain(text.encode())
    print(f"{len(ROWS) + len(DOMAINS) + 2} rows, {bad} differ")
    return bad > 0


if __name__ == "__main__":
    sys.exit(main())
