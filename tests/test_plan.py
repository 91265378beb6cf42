"""Plans that are found of problems in files, and why none is, worked by hand."""
from program import Case, call, told, told_by, world

CALL = "plan domain problem"

MATCH = world("MATCH")

TOGGLE = world("TOGGLE")

TOGGLED = world("TOGGLED")

MATCHES = world("MATCHES")

MENDED = "0: (light-match m1) [8]\n0: (mend-fuse f1) [5]\n"

SPARE = """(define (problem p) (:domain match) (:objects m1 m2 - match f1 - fuse)
 (:init (unused m1)) (:goal (unused m2)))"""

UNLIT = """(define (problem p) (:domain match) (:objects m1 - match f1 - fuse)
 (:init) (:goal (mended f1)))"""

UNSWITCHED = "(define (problem p) (:domain toggle) (:init) (:goal (done)))"

HELD = "(define (problem p) (:domain toggle) (:init (p)) (:goal (p)))"

TANK, EMPTY = world("TANK"), world("EMPTY_TANK")

CHARGE, UNCHARGED = world("CHARGE"), world("UNCHARGED")

BOTH = "(define (problem p) (:domain charge) (:init (= (e) 0)) (:goal (and (>= (e) 8) (full))))"

LAMP = """(define (domain lamp)
 (:predicates (on))
 (:action light :parameters () :precondition (not (on)) :effect (on))
 (:action quench :parameters () :precondition (on) :effect (not (on))))"""

NEVER = "(define (problem p) (:domain lamp) (:init) (:goal (and (on) (not (on)))))"

# a domain, a problem of it, the words of the call, what it writes, and its exit status
ROWS = (
    (TOGGLE, TOGGLED, CALL, "0: (need)\n", 0),
    (TOGGLE, TOGGLED, "plan --scale 100 domain problem --budget 1", "0.00: (need)\n", 0),
    (TOGGLE, TOGGLED, "plan domain problem --budget 0", "spent 0\n", 1),
    (TOGGLE, HELD, "plan domain problem --budget 0 --horizon 0", "", 0),
    (TOGGLE, UNSWITCHED, "plan domain problem --budget 7", "spent 7\n", 1),
    (TOGGLE, UNSWITCHED, CALL, "0: (give)\n0: (watch) [5]\n", 0),
    (MATCH, MATCHES, "plan domain problem --budget 7", MENDED, 0),
    (MATCH, MATCHES, "plan domain problem --budget 6", "spent 6\n", 1),
    (MATCH, MATCHES, "plan domain problem --budget 0", "spent 0\n", 1),
    (MATCH, SPARE, CALL, "unreachable\n", 1),
    (MATCH, UNLIT, CALL, "exhausted\n", 1),
    (MATCH, UNLIT, "plan domain problem --horizon 1000000000 --budget 1000000", "exhausted\n", 1),
    (MATCH, SPARE, "plan domain problem --budget 0", "unreachable\n", 1),
    (TOGGLE, TOGGLED, "plan domain problem --budget 1", "0: (need)\n", 0),
    (TOGGLE, UNSWITCHED, "plan domain problem --budget 8", "0: (give)\n0: (watch) [5]\n", 0),
    (TANK, EMPTY, "plan domain problem --budget 1", "spent 1\n", 1),
    (TANK, EMPTY, "plan domain problem --budget 2", "0: (fill-a)\n0: (fill-b)\n", 0),
    (CHARGE, UNCHARGED, "plan domain problem --budget 2", "spent 2\n", 1),
    (CHARGE, UNCHARGED, "plan domain problem --budget 3", "0: (rest) [2]\n", 0),
    # no step ends by a near horizon
    (CHARGE, UNCHARGED, "plan domain problem --budget 3 --horizon 1", "exhausted\n", 1),
    # each charge of two ticks gives four
    (CHARGE, BOTH, "plan domain problem --budget 10", "spent 10\n", 1),
    (CHARGE, BOTH, "plan domain problem --budget 100", "0: (rest) [2]\n2: (charge) [2]\n4: (charge) [2]\n", 0),
    # waits that lead to a state seen before are dropped, so no node is left in the end
    (LAMP, NEVER, "plan domain problem --budget 5", "spent 5\n", 1),
    (LAMP, NEVER, "plan domain problem --budget 6", "exhausted\n", 1),
)


# 91,125 bindings, of which few are in reach
ROADS = """(define (domain roads) (:requirements :typing) (:types place)
 (:predicates (at ?x - place) (road ?x ?y ?z - place))
 (:action go :parameters (?a ?b ?c - place) :precondition (and (at ?a) (road ?a ?b ?c))
  :effect (and (at ?b) (not (at ?a)))))"""

CHAIN = f"""(define (problem p) (:domain roads) (:objects {" ".join(f"o{i}" for i in range(45))} - place)
 (:init (at o0) {" ".join(f"(road o{i} o{i + 1} o0)" for i in range(44))}) (:goal (at o2)))"""


# twenty lamps: what asks for all of them, or not for all, is shared by what asks for it
PANEL = """(define (domain panel) (:types lamp key) (:predicates (lit ?l - lamp) (turned ?k - key) (done ?k - key))
 (:action turn :parameters (?k - key) :precondition (and (not (turned ?k)) (forall (?l - lamp) (lit ?l)))
  :effect (turned ?k))
 (:action end :parameters (?k - key) :precondition (or (turned ?k) (forall (?l - lamp) (lit ?l))) :effect (done ?k))
 (:action force :parameters (?k - key) :precondition (not (forall (?l - lamp) (lit ?l))) :effect (turned ?k))
 (:action light :parameters (?l - lamp) :precondition (not (lit ?l)) :effect (lit ?l))
 (:action darken :parameters (?l - lamp) :precondition (lit ?l) :effect (not (lit ?l))))"""

LAMPS = [f"l{i}" for i in range(20)]


def panel(lit, goal):
    """Two keys, and of the lamps the first are lit."""
    facts = " ".join(f"(lit {lamp})" for lamp in LAMPS[:lit])
    return f"(define (problem p) (:domain panel) (:objects {' '.join(LAMPS)} - lamp k0 k1 - key) (:init {facts}) (:goal {goal}))"


# how many lamps are lit, the goal, and what `plan` writes
SHARED = (
    (20, "(and (turned k0) (turned k1))", "0: (turn k0)\n0: (turn k1)\n"),
    (19, "(and (turned k0) (turned k1))", "0: (force k0)\n0: (force k1)\n"),
    (20, "(and (done k0) (done k1))", "0: (end k0)\n0: (end k1)\n"),
    (19, "(forall (?l - lamp) (lit ?l))", "0: (light l19)\n"),
    (20, "(not (forall (?l - lamp) (lit ?l)))", "0: (darken l0)\n"),
    # what turns a key may not happen with what darkens a lamp
    (20, "(and (turned k0) (not (lit l0)))", "0: (turn k0)\n1: (darken l0)\n"),
    (20, "(and (done k0) (not (lit l0)))", "0: (end k0)\n1: (darken l0)\n"),
    (19, "(and (turned k0) (lit l19))", "0: (force k0)\n1: (light l19)\n"),
)


# twenty things that may be looked at, all before what leads to the goal
CROWD = """(define (domain crowd) (:types thing) (:predicates (seen ?x - thing) (ready) (done))
 (:action look :parameters (?x - thing) :effect (seen ?x))
 (:action prepare :effect (ready))
 (:action finish :precondition (ready) :effect (done)))"""

CROWDED = f"""(define (problem p) (:domain crowd) (:objects {" ".join(f"x{i}" for i in range(20))} - thing)
 (:init) (:goal (done)))"""

# All nodes lack the goal, so they are expanded in the order in which they are made: the root, its 21 starts, for each look
# the starts behind it and a wait (20 + 19 + .. + 1, and 20), and then the wait behind `prepare`, whose child is the plan.
LAST = 1 + 21 + 230 + 1


# a stock whose square is past 10^15
SUPPLY = """(define (domain supply)
 (:functions (stock))
 (:action square :parameters () :effect (increase (stock) (* (stock) (stock)))))"""

OWED = """(define (problem p) (:domain supply)
 (:init (= (stock) 1000000000)) (:goal (< (stock) 0)))"""


# a goal that is met where nothing is deleted, and never else
SWITCHES = """(define (domain lamps) (:requirements :typing) (:types lamp)
 (:predicates (lit ?l - lamp) (done))
 (:action switch :parameters (?l - lamp) :precondition (not (lit ?l)) :effect (lit ?l))
 (:action dim :parameters (?l - lamp) :precondition (lit ?l) :effect (not (lit ?l)))
 (:action end :parameters (?l - lamp) :precondition (and (lit ?l) (not (lit ?l))) :effect (done)))"""

SWITCHED = "(define (problem p) (:domain lamps) (:objects a b c d e f g h i j - lamp) (:init) (:goal (done)))"


class Plan(Case):
    def test_plans_and_why_there_is_none(self):
        for domain, problem, words, text, status in ROWS:
            with self.subTest(f"{problem!r} {words}"):
                self.comes_to(told_by(text, status), words, {"domain": domain, "problem": problem})

    def test_plans_that_are_found_are_valid(self):
        for domain, problem, _, text, status in ROWS:
            if status == 0 and "." not in text:
                with self.subTest(text):
                    files = {"domain": domain, "problem": problem, "plan": text}
                    self.comes_to(told("valid\n"), "check domain problem plan", files)

    def test_conditions_that_actions_share(self):
        for lit, goal, text in SHARED:
            with self.subTest(f"{lit} lamps, {goal}"):
                files = {"domain": PANEL, "problem": panel(lit, goal)}
                self.comes_to(told_by(text, 0), CALL, files)

    def test_files_that_stop_a_search(self):
        with self.subTest("the domain is not there"):
            self.comes_to(told("", "fault file 1 read domain\n", 3), CALL, {"problem": TOGGLED})
        with self.subTest("a problem of another domain"):
            self.comes_to(told_by("fault problem 4 unknown 29\n", 2), CALL, {"domain": MATCH, "problem": TOGGLED})
        with self.subTest("a number past 10^15"):
            self.comes_to(told_by("fault search 2 range\n", 2), CALL, {"domain": SUPPLY, "problem": OWED})

    def test_more_bindings_than_there_may_be_actions(self):
        files = {"domain": ROADS, "problem": CHAIN}
        self.comes_to(told_by("0: (go o0 o1 o0)\n1: (go o1 o2 o0)\n", 0), CALL, files)

    def test_the_last_node_that_a_budget_reaches(self):
        files = {"domain": CROWD, "problem": CROWDED}
        for budget, text, status in ((LAST, "0: (prepare)\n1: (finish)\n", 0), (LAST - 1, f"spent {LAST - 1}\n", 1)):
            with self.subTest(f"{budget} nodes"):
                self.comes_to(told_by(text, status), f"{CALL} --budget {budget}", files)

    def test_how_far_a_search_is_is_told(self):
        files = {"domain": SWITCHES, "problem": SWITCHED}
        found = call(f"{CALL} --budget 250000 --progress", files)
        self.assertEqual((found.answers, found.status), (b"spent 250000\n", 1))
        lines = [f"expanded {count} waiting \\d+ lacking 1\n" for count in (100_000, 200_000)]
        self.assertRegex(found.faults.decode(), f"\\A{''.join(lines)}\\Z")
        for words in (f"{CALL} --budget 250000", f"{CALL} --budget 99999 --progress"):
            with self.subTest(words):
                self.assertEqual(call(words, files).faults, b"")
