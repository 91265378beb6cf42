"""Verdicts on plans in files, worked by hand."""
from program import NEVER, Case, Once, held, many_calls, told, world

SUPPLY_DOMAIN = """(define (domain supply)
 (:functions (stock))
 (:action empty-and-fill :parameters () :effect (and (assign (stock) 0) (increase (stock) 5)))
 (:action square :parameters () :effect (increase (stock) (* (stock) (stock)))))
"""

SUPPLY_PROBLEM = """(define (problem p) (:domain supply)
 (:init (= (stock) 1000000000)) (:goal (> (stock) 0)))
"""

# domains, each with a problem
MATCH = (world("MATCH"), world("MATCHES"))

TOGGLE = (world("TOGGLE"), world("TOGGLED"))

CHARGE = (world("CHARGE"), world("UNCHARGED"))

SUPPLY = (SUPPLY_DOMAIN, SUPPLY_PROBLEM)

TANK = (world("TANK"), world("EMPTY_TANK"))

# a tank that is as full as a number may be, and one that is to be filled by 512 steps
BRIM = (world("TANK"), "(define (problem p) (:domain tank) (:init (= (level) 1000000000000000)) (:goal (>= (level) 3)))")

DEEP = (world("TANK"), "(define (problem p) (:domain tank) (:init (= (level) 0)) (:goal (>= (level) 512)))")

LAMP = (
    """(define (domain lamp)
 (:predicates (lit) (open) (done))
 (:functions (fuel))
 (:durative-action watch :parameters () :duration (= ?duration 5)
  :condition (over all (and (lit) (not (open)) (>= (fuel) 2))) :effect (at end (done)))
 (:action light :parameters () :effect (lit))
 (:action light-anew :parameters () :effect (and (not (lit)) (lit)))
 (:action put-out :parameters () :effect (not (lit)))
 (:action shut :parameters () :effect (not (open)))
 (:action fill :parameters () :effect (assign (fuel) 2))
 (:action add-none :parameters () :effect (increase (fuel) 0))
 (:action burn :parameters () :effect (decrease (fuel) 1)))""",
    "(define (problem p) (:domain lamp) (:init (lit) (= (fuel) 2)) (:goal (done)))",
)

# the fluents x and y are 3 and 2, z has no value, and (on) is false
COUNTER = (
    """(define (domain counter)
 (:predicates (on))
 (:functions (x) (y) (z))
 (:action set :parameters () :effect (assign (x) 5))
 (:action up :parameters () :effect (increase (x) (y)))
 (:action grow :parameters () :effect (increase (y) 1))
 (:action both :parameters () :effect (and (assign (x) 1) (increase (x) 1)))
 (:action drain :parameters () :effect (decrease (x) (z)))
 (:action blink :parameters () :precondition (on) :effect (not (on)))
 (:action look :parameters () :precondition (not (= (z) 1)) :effect ())
 (:durative-action pause :parameters () :duration (= ?duration (y)) :effect ())
 (:durative-action wait :parameters () :duration (= ?duration (z)) :effect ())
 (:durative-action guard :parameters () :duration (= ?duration 4)
  :condition (over all (< (x) 5)) :effect ()))""",
    "(define (problem p) (:domain counter) (:init (= (x) 3) (= (y) 2)) (:goal (or (<= (x) 5) (on) (= (z) 0))))",
)

# an empty plan reaches this goal
MET = (world("TOGGLE"), "(define (problem p) (:domain toggle) (:init (p)) (:goal (p)))")

# no switch is there: what needs it is no action that `tempo plan` looks at
UNSWITCHED = (world("TOGGLE"), "(define (problem p) (:domain toggle) (:init) (:goal (done)))")

# one number of this problem is past 10^15
GREAT = (
    SUPPLY_DOMAIN,
    """(define (problem p) (:domain supply)
 (:init (= (stock) 1000000000000001)) (:goal (> (stock) 0)))""",
)

# the list of this domain does not end
CUT = ("(define (domain d)", world("UNCHARGED"))

# this problem is another domain's
OTHER = (world("CHARGE"), world("TOGGLED"))

# one number of this problem has a fraction
FRACTION = (
    world("CHARGE"),
    """(define (problem p) (:domain charge)
 (:init (= (e) 2.5)) (:goal (full)))""",
)

# the one action of this domain has 131,072 bindings
LARGE = (
    """(define (domain d) (:action a
 :parameters (?a ?b ?c ?d ?e ?f ?g ?h ?i ?j ?k ?l ?m ?n ?o ?p ?q - object)))""",
    "(define (problem p) (:domain d) (:objects x y) (:goal (and)))",
)

# 257 objects, two of which stand in each atom of this goal: 66,049 atoms
WIDE = (
    "(define (domain d) (:predicates (p ?a ?b)) (:action a :parameters ()))",
    "(define (problem p) (:domain d) (:objects {}) (:goal (forall (?a ?b) (not (p ?a ?b)))))".format(" ".join(f"o{n}" for n in range(257))),
)

# the same of numbers
WIDE_IN_NUMBERS = (
    "(define (domain d) (:functions (f ?a ?b)) (:action a :parameters ()))",
    "(define (problem p) (:domain d) (:objects {}) (:goal (forall (?a ?b) (> (f ?a ?b) 0))))".format(" ".join(f"o{n}" for n in range(257))),
)

# so many objects and no more
OBJECTS_OF = {
    count: ("(define (domain d))", "(define (problem p) (:domain d) (:objects {}) (:goal (and)))".format(" ".join(f"o{n}" for n in range(count))))
    for count in (65_535, 65_536)
}

# 2,210 ground actions, of which those alone are written out that a plan names
MANY = (
    """(define (domain many)
 (:predicates (at ?x) (seen ?x) (done)) (:functions (moves))
 (:action go :parameters (?a ?b ?c) :precondition (and (at ?a) (exists (?x) (at ?x)))
  :effect (and (not (at ?a)) (at ?b) (seen ?c) (increase (moves) 1)))
 (:durative-action stay :parameters (?a) :duration (>= ?duration 2)
  :condition (over all (at ?a)) :effect (at end (done))))""",
    """(define (problem p) (:domain many)
 (:objects o0 o1 o2 o3 o4 o5 o6 o7 o8 o9 o10 o11 o12) (:init (at o0) (= (moves) 0))
 (:goal (and (at o2) (seen o12) (done) (= (moves) 2))))""",
)

CALL = "check domain problem plan"

TENTHS = "check domain problem plan --scale 10 --horizon 35"

THOUSANDTHS = "check domain problem plan --scale 1000"

NEAR = "check domain problem plan --horizon 5"

NEAR_AND_FINE = "check domain problem plan --scale 1000 --horizon 5000"

# plans, the words of the call, and the line that it writes
FUSES = (
    ("0: (light-match m1) [8]\n0: (mend-fuse f1) [5]\n", CALL, "valid\n"),
    ("0: (light-match m1) [8]\n3: (mend-fuse f1) [5]\n", CALL, "valid\n"),
    ("0: (light-match m1) [8]\n4: (mend-fuse f1) [5]\n", CALL, "invalid 8 over-all 1\n"),
    ("0: (mend-fuse f1) [5]\n1: (light-match m1) [8]\n", CALL, "invalid 0 over-all 0\n"),
    ("0: (light-match m1) [8]\n9: (light-match m1) [8]\n", CALL, "invalid 9 condition 2\n"),
    ("0: (light-match m1) [8]\n0: (light-match m1) [8]\n", CALL, "invalid 0 interferes 0 2\n"),
    ("2: (light-match m1) [7]\n", CALL, "invalid 2 duration 0\n"),
    ("2: (light-match m1) [8]\n", CALL, "invalid 10 goal\n"),
    ("", CALL, "invalid 0 goal\n"),
)

SWITCHES = (
    ("3: (need)\n3: (drop)\n", CALL, "invalid 3 interferes 0 1\n"),
    ("3: (need)\n4: (drop)\n", CALL, "valid\n"),
    ("3: (drop)\n4: (need)\n", CALL, "invalid 4 condition 1\n"),
    ("0: (watch) [5]\n2: (give)\n3: (drop)\n", CALL, "valid\n"),
    ("3: (drop)\n3: (need)\n", CALL, "invalid 3 interferes 0 1\n"),
    ("4: (drop)\n3: (need)\n", CALL, "valid\n"),
    ("4: (need)\n3: (drop)\n", CALL, "invalid 4 condition 0\n"),
    ("0: (drop)\n7: (give)\n", CALL, "invalid 7 goal\n"),
    ("", CALL, "invalid 0 goal\n"),
)

HORIZONS = (
    ("999998: (rest) [2]\n", CALL, "valid\n"),
    ("999999: (rest) [2]\n", CALL, "fault plan 7 horizon 1\n"),
    ("999999: (rest) [2]\n", "check domain problem plan --horizon 1000001", "valid\n"),
    ("999999: (rest) [2]\n", "check domain problem plan --horizon=1000000000", "valid\n"),
    ("0.5: (rest) [3]\n", TENTHS, "valid\n"),
    ("0.6: (rest) [3]\n", TENTHS, "fault plan 7 horizon 1\n"),
)

DURATIONS = (
    ("0: (charge) [4]\n", CALL, "valid\n"),
    ("0: (rest) [4]\n", CALL, "valid\n"),
    ("0: (charge) [7]\n", CALL, "invalid 0 duration 0\n"),
    ("0: (rest) [0]\n", CALL, "invalid 0 duration 0\n"),
    ("0: (rest) [2]\n", CALL, "valid\n"),
    ("0: (rest) [6]\n", CALL, "valid\n"),
    ("0: (charge) [2]\n0: (charge) [2]\n", CALL, "valid\n"),
    ("0: (charge) [2]\n1: (charge) [2]\n", CALL, "valid\n"),
    ("0: (charge) [3]\n", CALL, "invalid 3 goal\n"),
    ("0: (charge) [1]\n", CALL, "invalid 0 duration 0\n"),
    ("0: (rest) [4]\n3: (charge) [7]\n", CALL, "invalid 3 duration 1\n"),
)

FRACTIONS = (
    ("0.001: (charge) [2.000]\n", THOUSANDTHS, "invalid 2001 goal\n"),
    ("0.001: (charge) [4.000]\n", THOUSANDTHS, "valid\n"),
    ("0.001: (charge) [4.5]\n", THOUSANDTHS, "invalid 4501 undefined 1\n"),
    ("0.0005: (charge) [4]\n", THOUSANDTHS, "fault plan 4 not-ticks 1\n"),
    ("0.001: (rest) [4.5]\n", THOUSANDTHS, "valid\n"),
    ("0.001: (rest) [6.001]\n", THOUSANDTHS, "invalid 1 duration 0\n"),
    ("0.001: (rest) [1.999]\n", THOUSANDTHS, "invalid 1 duration 0\n"),
)

# a goal that is met at first may be lost
MET_OR_LOST = (
    ("", CALL, "valid\n"),
    ("5: (drop)\n", CALL, "invalid 5 goal\n"),
)

# an invariant counts from its start on, up to the tick before its end
WATCHED = (
    ("0: (watch) [5]\n2: (give)\n3: (drop)\n", CALL, "valid\n"),
    ("0: (watch) [5]\n3: (give)\n3: (drop)\n", CALL, "valid\n"),
    ("0: (watch) [5]\n3: (drop)\n4: (give)\n", CALL, "invalid 3 over-all 0\n"),
    ("3: (drop)\n0: (watch) [5]\n", CALL, "invalid 3 over-all 1\n"),
    ("0: (watch) [5]\n0: (drop)\n", CALL, "invalid 0 over-all 0\n"),
    ("0: (watch) [5]\n4: (drop)\n", CALL, "invalid 4 over-all 0\n"),
    ("0: (watch) [5]\n5: (drop)\n", CALL, "valid\n"),
    ("0: (drop)\n1: (watch) [5]\n1: (give)\n", CALL, "valid\n"),
    ("0: (drop)\n1: (watch) [5]\n2: (give)\n", CALL, "invalid 1 over-all 1\n"),
    ("0: (watch) [5]\n2: (watch) [5]\n", CALL, "valid\n"),
    ("1: (watch) [4]\n", CALL, "invalid 1 duration 0\n"),
    ("1: (watch) [6]\n", CALL, "invalid 1 duration 0\n"),
)

# what writes into an invariant, and changes nothing that it mentions, leaves it as it is
WRITTEN_AGAIN = (
    ("0: (watch) [5]\n2: (light)\n", CALL, "valid\n"),
    ("0: (watch) [5]\n2: (light-anew)\n", CALL, "valid\n"),
    ("0: (watch) [5]\n2: (shut)\n", CALL, "valid\n"),
    ("0: (watch) [5]\n2: (fill)\n", CALL, "valid\n"),
    ("0: (watch) [5]\n2: (add-none)\n", CALL, "valid\n"),
    ("0: (watch) [5]\n1: (light)\n2: (put-out)\n", CALL, "invalid 2 over-all 0\n"),
    ("0: (watch) [5]\n2: (light)\n2: (shut)\n3: (burn)\n", CALL, "invalid 3 over-all 0\n"),
    ("0: (watch) [5]\n1: (fill)\n2: (light)\n2: (burn)\n", CALL, "invalid 2 over-all 0\n"),
)

# a tank that is held below a level
HELD = (
    ("1: (fill-a)\n1: (fill-b)\n", CALL, "valid\n"),
    ("0: (hold) [4]\n1: (fill-a)\n1: (fill-b)\n", CALL, "valid\n"),
    ("0: (hold) [4]\n1: (fill-a)\n1: (fill-b)\n2: (fill-a)\n", CALL, "invalid 2 over-all 0\n"),
    ("0: (hold) [4]\n1: (fill-a)\n1: (fill-b)\n4: (fill-a)\n", CALL, "valid\n"),
    ("0: (hold) [0]\n1: (fill-b)\n", CALL, "invalid 0 duration 0\n"),
    ("7: (fill-b)\n", CALL, "invalid 7 goal\n"),
)

# a fault may stand before a number that is out of range
BRIMMED = (
    ("1: (hold) [2]\n7: (fill-a)\n", CALL, "invalid 1 over-all 0\n"),
    ("", CALL, "valid\n"),
    ("7: (fill-a)\n", CALL, "fault check 2 range\n"),
)

# at one tick durations are looked at first, then values, conditions, clashes, interference, and at last invariants
COUNTED = (
    ("1: (wait) [3]\n", CALL, "invalid 1 undefined 0\n"),
    ("1: (look)\n", CALL, "invalid 1 condition 0\n"),
    ("1: (drain)\n1: (pause) [3]\n", CALL, "invalid 1 duration 1\n"),
    ("1: (pause) [2]\n1: (blink)\n1: (drain)\n", CALL, "invalid 1 undefined 3\n"),
    ("1: (both)\n1: (blink)\n", CALL, "invalid 1 condition 1\n"),
    ("1: (set)\n1: (both)\n", CALL, "invalid 1 clash 1\n"),
    ("1: (grow)\n1: (set)\n1: (up)\n", CALL, "invalid 1 interferes 0 2\n"),
    ("5: (drain)\n1: (set)\n1: (up)\n", CALL, "invalid 1 interferes 1 2\n"),
    ("0: (guard) [4]\n1: (set)\n1: (up)\n", CALL, "invalid 1 interferes 2 3\n"),
    ("0: (guard) [4]\n1: (guard) [4]\n2: (set)\n", CALL, "invalid 2 over-all 0\n"),
    ("0: (pause) [2]\n0: (grow)\n", CALL, "invalid 0 interferes 0 2\n"),
    ("0: (grow)\n1: (pause) [3]\n", CALL, "invalid 4 goal\n"),
    ("0: (grow)\n1: (pause) [2]\n", CALL, "invalid 1 duration 1\n"),
    ("1: (pause) [2]\n2: (up)\n3: (up)\n", CALL, "invalid 3 goal\n"),
)

# more events at one tick than are compared in pairs
CROWDED = (
    (20 * "1: (grow)\n", CALL, "invalid 1 goal\n"),
    (20 * "1: (set)\n", CALL, "invalid 1 interferes 0 1\n"),
    (17 * "1: (grow)\n" + "1: (set)\n1: (up)\n", CALL, "invalid 1 interferes 0 18\n"),
    (2 * "1: (look)\n" + 16 * "1: (up)\n" + "1: (set)\n", CALL, "invalid 1 condition 0\n"),
    ("1: (grow)\n" + 16 * "1: (up)\n" + "1: (set)\n", CALL, "invalid 1 interferes 0 1\n"),
    (16 * "1: (up)\n" + "1: (set)\n", CALL, "invalid 1 interferes 0 16\n"),
)

PLANS = (
    ("0: (charge)\n", CALL, "fault plan 6 no-duration 1\n"),
    ("x: (rest) [2]\n", CALL, "fault plan 2 line 1\n"),
    ("\n0: (dash) [1]\n", CALL, "fault plan 3 no-action 2\n"),
    ("4: (rest) [2]\n", "check domain problem plan --horizon 5", "fault plan 7 horizon 1\n"),
)

# lines that are no steps, or not those of an action, up to a near horizon
SPELLINGS = (
    ("0: (charge)\n", NEAR, "fault plan 6 no-duration 1\n"),
    ("x: (rest) [2]\n", NEAR, "fault plan 2 line 1\n"),
    ("0: (dash) [1]\n", NEAR, "fault plan 3 no-action 1\n"),
    ("4: (rest) [2]\n", NEAR, "fault plan 7 horizon 1\n"),
    ("1.: (rest) [2]\n", NEAR, "fault plan 2 line 1\n"),
    ("0: rest [2]\n", NEAR, "fault plan 2 line 1\n"),
    ("0: () [2]\n", NEAR, "fault plan 2 line 1\n"),
    ("0: (2rest) [2]\n", NEAR, "fault plan 2 line 1\n"),
    ("0: (rest) [2] x\n", NEAR, "fault plan 2 line 1\n"),
    ("0: (rest) [x]\n", NEAR, "fault plan 2 line 1\n"),
    ("\n;\n0: (rest) [2\n", NEAR, "fault plan 2 line 3\n"),
    ("0: (r\u00e9st) [2]\n", NEAR, "fault plan 2 line 1\n"),
    ("0: (rest) [2]\n3: (rest) [3]\nx\n", NEAR, "fault plan 7 horizon 2\n"),
)

# within a line its form is looked at first, then its action, then its brackets, then its ticks, and at last the horizon
IN_ORDER = (
    ("0.0005: (dash) x\n", NEAR_AND_FINE, "fault plan 2 line 1\n"),
    ("0.0005: (dash)\n", NEAR_AND_FINE, "fault plan 3 no-action 1\n"),
    ("0.0005: (charge)\n", NEAR_AND_FINE, "fault plan 6 no-duration 1\n"),
    ("0.0005: (charge) [9]\n", NEAR_AND_FINE, "fault plan 4 not-ticks 1\n"),
    ("9: (charge) [0.0005]\n", NEAR_AND_FINE, "fault plan 4 not-ticks 1\n"),
    ("0: (charge) [5000000]\n", NEAR_AND_FINE, "fault plan 4 not-ticks 1\n"),
    ("0: (charge) [5.001]\n", NEAR_AND_FINE, "fault plan 7 horizon 1\n"),
)

# an action that has other objects, and what stands in brackets behind one that needs none
OBJECTS = (
    ("0: (mend-fuse m1) [5]\n", CALL, "fault plan 3 no-action 1\n"),
    ("0: (mend-fuse) [5]\n", CALL, "fault plan 3 no-action 1\n"),
)

BRACKETS = (
    ("3: (need) [0.5]\n4: (drop)\n", CALL, "valid\n"),
    ("3: (need) [x]\n", CALL, "fault plan 2 line 1\n"),
    ("100: (need) [9]\n", "check domain problem plan --horizon 100", "valid\n"),
    ("101: (need)\n", "check domain problem plan --horizon 100", "fault plan 7 horizon 1\n"),
)

# many steps, and a line that is none
LONG = (
    (512 * "0: (rest) [2]\n;\n" + "x", CALL, "fault plan 5 too-many\n"),
    (";\nx\n" + 513 * "0: (rest) [2]\n;\n", CALL, "fault plan 2 line 2\n"),
    (511 * "0: (rest) [2]\n;\n" + "x", CALL, "fault plan 2 line 1023\n"),
    (600 * "0: (rest) [2]\n;\n" + "x", CALL, "fault plan 5 too-many\n"),
)

NAMED = (
    ("0: (go o0 o1 o12)\n1: (GO O1 o2 o3) ; (go o1 o2 o4)\n2: (stay o2) [3]\n", CALL, "valid\n"),
    ("0: (stay o0) [3]\n4: (stay o0) [3]\n8: (go o0 o1 o12)\n9: (go o1 o2 o2)\n", CALL, "valid\n"),
    ("; (go o0 o1 o12)\n\n1: (go o0 o2 o12)\n3: (go o0 o2 o3)\n", CALL, "invalid 3 condition 1\n"),
    ("".join(f"{tick}: (go o{tick} o{tick + 1} o12)\n" for tick in range(10)), CALL, "invalid 9 goal\n"),
    ("0: (stay o0) [3]\n1: (go o0 o1 o12)\n", CALL, "invalid 1 over-all 0\n"),
    ("0: (stay o0) [1]\n", CALL, "invalid 0 duration 0\n"),
    ("", CALL, "invalid 0 goal\n"),
    ("0: (stay o0)\n", CALL, "fault plan 6 no-duration 1\n"),
    ("0: (go o0 o1 o12)\n1: (go o0 o1 o13)\n", CALL, "fault plan 3 no-action 2\n"),
    ("0: (go o0 o1)\n", CALL, "fault plan 3 no-action 1\n"),
    ("0: (go o0 o1 o12)\n1: (wait)\n", CALL, "fault plan 3 no-action 2\n"),
    ("0: go o0 o1 o12\n", CALL, "fault plan 2 line 1\n"),
    ("0: (stay o0) [3]\n" * 513, CALL, "fault plan 5 too-many\n"),
)


def verdict(line):
    """What a call comes to that writes that line: a verdict goes to the output, and a fault ends with status 2."""
    if line.startswith("fault "):
        return told("", line, 2)
    return told(line, "", 0 if line == "valid\n" else 1)


class Check(Case):
    def writes(self, example, plan, words, line):
        """A call with those files writes that line, and ends with its status."""
        files = {"domain": example[0], "problem": example[1], "plan": plan}
        self.comes_to(verdict(line), words, files)

    def each_writes(self, example, rows):
        for plan, words, line in rows:
            with self.subTest(f"{plan!r} {words}"):
                self.writes(example, plan, words, line)

    def test_a_fuse_is_mended_by_the_light_of_a_match(self):
        self.each_writes(MATCH, FUSES)

    def test_what_is_needed_is_not_dropped_at_the_same_tick(self):
        self.each_writes(TOGGLE, SWITCHES)

    def test_a_goal_that_is_met_may_be_lost(self):
        self.each_writes(MET, MET_OR_LOST)

    def test_what_is_watched_over_all(self):
        self.each_writes(TOGGLE, WATCHED)

    def test_what_is_written_again_and_what_is_changed(self):
        self.each_writes(LAMP, WRITTEN_AGAIN)

    def test_a_tank_that_is_held(self):
        self.each_writes(TANK, HELD)
        self.each_writes(BRIM, BRIMMED)

    def test_the_first_fault_of_a_tick_is_told(self):
        self.each_writes(COUNTER, COUNTED)
        self.each_writes(COUNTER, CROWDED)

    @many_calls
    def test_a_plan_of_512_steps(self):
        for count, line in ((512, "valid\n"), (511, "invalid 510 goal\n")):
            self.writes(DEEP, "".join(f"{tick}: (fill-a)\n" for tick in range(count)), CALL, line)

    def test_an_empty_plan_is_judged_by_its_goal(self):
        with self.subTest("a goal that is not met"):
            self.writes(TOGGLE, "", CALL, "invalid 0 goal\n")
        with self.subTest("an action out of reach"):
            self.writes(UNSWITCHED, "0: (need)\n", CALL, "invalid 0 condition 0\n")
        with self.subTest("a goal that is met"):
            self.writes(MET, "", CALL, "valid\n")

    def test_a_number_is_set_or_changed_but_not_both(self):
        self.writes(SUPPLY, "2: (empty-and-fill)\n", CALL, "invalid 2 clash 0\n")

    def test_numbers_past_10_to_the_15_are_not_judged(self):
        with self.subTest("a value that is too great to judge"):
            self.writes(SUPPLY, "0: (square)\n", CALL, "fault check 2 range\n")
        with self.subTest("a number that is too great to write"):
            self.writes(GREAT, "", CALL, "fault ground 3 range\n")

    def test_no_step_ends_past_the_horizon(self):
        self.each_writes(CHARGE, HORIZONS)

    def test_durations_keep_their_constraint(self):
        self.each_writes(CHARGE, DURATIONS)

    def test_times_may_have_fractions(self):
        self.each_writes(CHARGE, FRACTIONS)

    def test_domains_and_problems_that_cannot_be_read(self):
        with self.subTest("a list that does not end"):
            self.writes(CUT, "", CALL, "fault domain 2 text 4 unclosed 0\n")
        with self.subTest("a problem of another domain"):
            self.writes(OTHER, "", CALL, "fault problem 4 unknown 29\n")
        with self.subTest("a fraction"):
            self.writes(FRACTION, "", CALL, "fault problem 7 left-out 52 number\n")

    def test_of_any_number_of_bindings_those_are_judged_that_a_plan_names(self):
        self.writes(LARGE, "0: (a {})\n".format(" ".join("xy" * 8 + "x")), CALL, "valid\n")
        self.writes(LARGE, "0: (a {})\n".format(" ".join("xy" * 8)), CALL, "fault plan 3 no-action 1\n")

    @many_calls
    def test_many_variables_take_no_deep_stack(self):
        variables = " ".join(f"?x{number}" for number in range(4_000)) + " - van"
        domain = "(define (domain d) (:types van) (:constants v - van) (:predicates (p)) (:action go :parameters ({}) :precondition {} :effect ()))"
        problem = "(define (problem q) (:domain d) (:init (p)) (:goal (p)))"
        with self.subTest("of an action"):
            self.writes((domain.format(variables, "(p)"), problem), f"0: (go{4_000 * ' v'})\n", CALL, "valid\n")
        with self.subTest("of a quantifier"):
            self.writes((domain.format("", f"(forall ({variables}) (p))"), problem), "0: (go)\n", CALL, "valid\n")

    @many_calls
    def test_tasks_that_are_too_large(self):
        self.writes(WIDE, "", CALL, "fault ground 2 too-many atoms\n")
        self.writes(WIDE_IN_NUMBERS, "", CALL, "fault ground 2 too-many fluents\n")
        self.writes(OBJECTS_OF[65_535], "", CALL, "valid\n")
        self.writes(OBJECTS_OF[65_536], "", CALL, "fault ground 2 too-many objects\n")

    @many_calls
    def test_of_many_ground_actions_those_are_kept_that_a_plan_names(self):
        self.each_writes(MANY, NAMED)
        self.asks_for({"domain": Once(MANY[0]), "problem": Once(MANY[1])}, "fault file 1 read plan\n", 3)
        plan = Once("0: (go o0 o1 o13)\n")
        self.asks_for({"domain": Once(MANY[0]), "problem": Once(MANY[1]), "plan": plan}, "fault plan 3 no-action 1\n", 2)

    def test_what_memory_cannot_hold_is_refused(self):
        """Four thousand million conditions or effects, where 1 GB may be taken."""
        domain = "(define (domain d) (:predicates (p ?x)) (:action act :parameters () :precondition {} :effect {}))"
        objects = " ".join(f"o{number}" for number in range(40_000))
        problem = f"(define (problem q) (:domain d) (:objects {objects}) (:init) (:goal ()))"
        many = f"(forall (?a) (and {'(p ?a)' * 100_000}))"
        for name, condition, effect in (("a condition", many, "()"), ("effects", "()", many)):
            with self.subTest(name):
                files = {"domain": domain.format(condition, effect), "problem": problem, "plan": "0: (act)\n"}
                outcome, _ = held("check domain problem plan", files, 1 << 30)
                self.assertEqual(outcome, told("", "fault ground 1 memory\n", 3))

    def test_atoms_that_are_asked_for_again_and_again_keep_their_numbers(self):
        """64,449 atoms of three and of four objects whose names end alike, each mentioned four times: those that the tables were asked
        for often are found in an order from then on."""
        few = " ".join(f"o{number}_same" for number in range(15))
        more = " ".join(f"m{number}_same" for number in range(9))
        domain = "(define (domain d) (:types t all - object s - all) (:predicates (p ?a ?b ?c ?d) (q ?a ?b ?c)))"
        goal = "(and (forall (?z - t ?a ?b ?c ?d - s) (not (p ?a ?b ?c ?d))) (forall (?z - t ?a ?b ?c - all) (not (q ?a ?b ?c))))"
        for init, line in (
            ("", "valid\n"),
            ("(p o14_same o14_same o3_same o14_same)", "invalid 0 goal\n"),
            ("(q m8_same o0_same m8_same)", "invalid 0 goal\n"),
        ):
            with self.subTest(init):
                problem = f"(define (problem r) (:domain d) (:objects {few} - s {more} - all z0 z1 z2 z3 - t) (:init {init}) (:goal {goal}))"
                self.writes((domain, problem), "", CALL, line)

    def test_plans_that_cannot_be_read(self):
        self.each_writes(CHARGE, PLANS)
        self.each_writes(CHARGE, SPELLINGS)
        self.each_writes(CHARGE, IN_ORDER)
        self.each_writes(MATCH, OBJECTS)
        self.each_writes(TOGGLE, BRACKETS)

    @many_calls
    def test_plans_of_many_lines(self):
        self.each_writes(CHARGE, LONG)
        with self.subTest("too many steps"):
            self.writes(CHARGE, 513 * "0: (rest) [2]\n", CALL, "fault plan 5 too-many\n")

    def test_bytes_that_are_no_text_and_texts_that_are_too_long(self):
        with self.subTest("bytes that are no text"):
            self.writes(CHARGE, b"; \xe4\n", CALL, "fault file 2 utf8 plan\n")
        with self.subTest("a text that is too long"):
            self.writes(CHARGE, 1_048_577 * " ", CALL, "fault file 3 too-long plan\n")
        with self.subTest("a text whose last letter is cut"):
            self.writes(CHARGE, b"; \xc3", CALL, "fault file 2 utf8 plan\n")
        with self.subTest("a text that is too long, and whose last byte is no text"):
            self.writes(CHARGE, 1_048_576 * b" " + b"\xff", CALL, "fault file 3 too-long plan\n")
        with self.subTest("a letter of two bytes in a comment"):
            self.writes(CHARGE, "; \u00e4\n0: (rest) [4]\n", CALL, "valid\n")

    def asks_for(self, files, line, status):
        """A call with those files writes that line. It opens each of them once at most, and none behind the last of them."""
        with self.subTest(line.strip()):
            self.comes_to(told("", line, status), CALL, files)

    def test_a_file_is_opened_only_when_what_stands_before_it_is_done(self):
        domain, problem = Once(CHARGE[0]), Once(CHARGE[1])
        self.asks_for({"problem": NEVER, "plan": NEVER}, "fault file 1 read domain\n", 3)
        self.asks_for({"domain": Once("("), "problem": NEVER, "plan": NEVER}, "fault domain 2 text 4 unclosed 0\n", 2)
        self.asks_for({"domain": domain, "plan": NEVER}, "fault file 1 read problem\n", 3)
        self.asks_for({"domain": GREAT[0], "problem": GREAT[1], "plan": NEVER}, "fault ground 3 range\n", 2)
        self.asks_for({"domain": WIDE[0], "problem": WIDE[1], "plan": NEVER}, "fault ground 2 too-many atoms\n", 2)
        self.asks_for({"domain": domain, "problem": problem}, "fault file 1 read plan\n", 3)

    def test_a_verdict_that_cannot_be_written(self):
        files = {"domain": CHARGE[0], "problem": CHARGE[1], "plan": "0: (rest) [4]\n"}
        self.comes_to(told("va", "fault script 2 write\n", 3), CALL, files, room=2)
