"""Plans that the guided search finds of problems in files, and why none is, worked by hand."""
import pathlib
import re

from program import Case, call, told, told_by
from test_plan import HELD, MATCH, MATCHES, MENDED, OWED, SPARE, SUPPLY, TOGGLE, TOGGLED, UNLIT

# small problems of fourteen domains, three of each, in the manner of the planning competitions
SERIES = pathlib.Path(__file__).resolve().parent / "series"

CALL = "solve domain problem"

METRIC = TOGGLED.replace("(:goal (done))", "(:goal (done)) (:metric minimize (total-time))")

# two ends that may not come at one tick, the one that gives `r` behind the one that takes it
MEET = """(define (domain meet) (:predicates (q) (r) (s))
 (:durative-action take :parameters () :duration (= ?duration 5) :effect (and (at end (q)) (at end (not (r)))))
 (:durative-action give :parameters () :duration (= ?duration 5) :effect (and (at end (s)) (at end (r)))))"""

MET = "(define (problem p) (:domain meet) (:init) (:goal (and (q) (r) (s))))"

# a count that begins short of the greatest number, and what may not happen there
BRIM = """(define (domain brim) (:predicates (done)) (:functions (x))
 (:action rise :parameters () :effect (increase (x) 1))
 (:action finish :parameters () :precondition (>= (x) 1000000000000000) :effect (done)))"""


def brim(first, goal):
    return f"(define (problem p) (:domain brim) (:init (= (x) {first})) (:goal {goal}))"


# a lamp that burns once, for 2 to 20 ticks, repairs by its light, and a rest in the dark after them
LAMP = """(define (domain lamp) (:predicates (full) (lit) (dark) (free) (broken ?x) (whole ?x) (rested))
 (:durative-action burn :parameters () :duration (and (>= ?duration 2) (<= ?duration 20))
  :condition (at start (full))
  :effect (and (at start (not (full))) (at start (lit)) (at start (not (dark))) (at end (not (lit))) (at end (dark))))
 (:durative-action repair :parameters (?x) :duration (= ?duration 10)
  :condition (and (at start (free)) (at start (broken ?x)) (over all (lit)))
  :effect (and (at start (not (free))) (at start (not (broken ?x))) (at end (free)) (at end (whole ?x))))
 (:durative-action rest :parameters (?x) :duration (= ?duration 8)
  :condition (and (at start (whole ?x)) (over all (dark))) :effect (at end (rested))))"""

# one that burns for up to 40 ticks
BRIGHT = LAMP.replace("20", "40")


def lamp(goal):
    return f"(define (problem p) (:domain lamp) (:objects a b) (:init (full) (dark) (free) (broken a) (broken b)) (:goal (and {goal})))"


REPAIRED = "0: (burn) [10]\n0: (repair a) [10]\n"

BOTH = "(whole a) (whole b)"

# a domain, a problem of it, the words of the call, what it writes, and its exit status
ROWS = (
    (TOGGLE, TOGGLED, CALL, "0: (need)\n", 0),
    (TOGGLE, METRIC, CALL, "0: (need)\n", 0),
    (TOGGLE, TOGGLED, "solve --scale 100 domain problem --improve --budget 1000", "0.00: (need)\n", 0),
    (TOGGLE, TOGGLED, f"{CALL} --budget 0", "spent 0\n", 1),
    (TOGGLE, HELD, f"{CALL} --budget 0 --horizon 0", "", 0),
    (TOGGLE, HELD, f"{CALL} --improve --progress", "", 0),
    (MATCH, MATCHES, f"{CALL} --budget 2", MENDED, 0),
    (MATCH, MATCHES, f"{CALL} --budget 1", "spent 1\n", 1),
    (MATCH, MATCHES, f"{CALL} --budget 0", "spent 0\n", 1),
    (MATCH, MATCHES, f"{CALL} --budget 1000000000", MENDED, 0),
    (MATCH, MATCHES, f"{CALL} --horizon 8", MENDED, 0),
    (MATCH, MATCHES, f"{CALL} --horizon 7", "exhausted\n", 1),
    (MATCH, SPARE, CALL, "unreachable\n", 1),
    (MATCH, SPARE, f"{CALL} --budget 0 --improve", "unreachable\n", 1),
    # the mending may end in the delete relaxation of `plan`, which has ends without their starts
    (MATCH, UNLIT, CALL, "unreachable\n", 1),
    (MATCH, UNLIT, f"{CALL} --budget 0", "unreachable\n", 1),
    (MEET, MET, CALL, "0: (take) [5]\n1: (give) [5]\n", 0),
    (MEET, MET, f"{CALL} --horizon 6", "0: (take) [5]\n1: (give) [5]\n", 0),
    (MEET, MET, f"{CALL} --horizon 5", "exhausted\n", 1),
    (LAMP, lamp("(whole a)"), CALL, REPAIRED, 0),
    (LAMP, lamp("(whole a)"), f"{CALL} --horizon 12", REPAIRED, 0),
    (LAMP, lamp("(whole a)"), f"{CALL} --horizon 10", REPAIRED, 0),
    (LAMP, lamp("(whole a)"), f"{CALL} --horizon 9", "exhausted\n", 1),
    (LAMP, lamp("(whole a) (rested)"), f"{CALL} --horizon 19", f"{REPAIRED}11: (rest a) [8]\n", 0),
    (BRIGHT, lamp(BOTH), f"{CALL} --horizon 21", "0: (burn) [21]\n0: (repair a) [10]\n11: (repair b) [10]\n", 0),
    (BRIM, brim(999999999999999, "(done)"), CALL, "0: (rise)\n1: (finish)\n", 0),
    (BRIM, brim(1000000000000000, "(done)"), CALL, "0: (finish)\n", 0),
)

# 45 places, of whose 91,125 rides each has an end that nothing keeps from happening, and two a start
RIDES = """(define (domain rides) (:predicates (at ?x) (road ?x ?y ?z))
 (:durative-action ride :parameters (?x ?y ?z) :duration (= ?duration 3)
  :condition (and (at start (at ?x)) (at start (road ?x ?y ?z)))
  :effect (and (at start (not (at ?x))) (at end (at ?y)))))"""

PLACES = f"""(define (problem p) (:domain rides) (:objects {" ".join(f"o{i}" for i in range(45))})
 (:init (at o0) (road o0 o1 o0) (road o1 o2 o0)) (:goal (at o2)))"""

RIDDEN = "0: (ride o0 o1 o0) [3]\n4: (ride o1 o2 o0) [3]\n"

# the same without roads, so that each ride may be of use
FLIGHTS = RIDES.replace("(at start (road ?x ?y ?z))", "").replace("(road ?x ?y ?z)", "")

AIRPORTS = re.sub(r" \(road [^)]*\)", "", PLACES)

# a count of instantaneous steps, one a tick
STEPS = """(define (domain steps) (:functions (x))
 (:action step :parameters () :effect (increase (x) 1)))"""


def counted(steps):
    return f"(define (problem p) (:domain steps) (:init (= (x) 0)) (:goal (>= (x) {steps})))"


# matches, each of which may be lit for the mending of as many fuses as hands
HANDS = MATCH.replace("(mended ?f - fuse)", "(mended ?f - fuse) (free ?h - hand)").replace("match fuse)", "match fuse hand)", 1)
HANDS = HANDS.replace(
    """mend-fuse :parameters (?f - fuse)
  :duration (= ?duration 5)
  :condition (over all (light))
  :effect (at end (mended ?f))""",
    """mend-fuse :parameters (?f - fuse ?h - hand)
  :duration (= ?duration 5)
  :condition (and (at start (free ?h)) (over all (light)))
  :effect (and (at start (not (free ?h))) (at end (free ?h)) (at end (mended ?f)))""",
)


def handed(fuses):
    """A problem with two hands, and a match for each two fuses."""
    objects = " ".join(f"f{i}" for i in range(fuses))
    matches = [f"m{i}" for i in range((fuses + 1) // 2)]
    goal = " ".join(f"(mended f{i})" for i in range(fuses))
    unused = " ".join(f"(unused {m})" for m in matches)
    return f"""(define (problem p) (:domain match) (:objects {objects} - fuse {" ".join(matches)} - match h0 h1 - hand)
 (:init {unused} (free h0) (free h1)) (:goal (and {goal})))"""


# the ticks of a unit of time of each domain, and for its three problems how many nodes are expanded up to the first plan, and the tick
# at which that ends: what another program in plain Rust finds that searches in the same order
COUNTS = (
    ("crew", 10, ((2, 14400), (2, 28801), (2, 14400))),
    ("depots", 1, ((4, 27), (6, 33), (14, 58))),
    ("driverlog", 1, ((3, 44), (3, 84), (5, 178))),
    ("elevators", 1, ((3, 24), (3, 24), (3, 31))),
    ("floortile", 1, ((21, 47), (32, 64), (97, 88))),
    ("matchcellar", 1, ((2, 5), (2, 5), (5, 11))),
    ("observ", 10, ((6, 1170), (9, 1500), (17, 2690))),
    ("openstacks", 1, ((5, 142), (7, 168), (9, 275))),
    ("parking", 1, ((3, 5), (5, 20), (7, 28))),
    ("rovers", 1, ((3, 46), (5, 97), (4, 80))),
    ("satellite", 1, ((4, 102), (8, 187), (6, 250))),
    ("testbench", 10, ((3, 2501), (8, 2551), (34, 4912))),
    ("turnandopen", 1, ((4, 14), (6, 29), (5, 22))),
    ("zeno", 1, ((2, 163), (5, 449), (4, 373))),
)

# how the makespan of a plan is told as it is found
TOLD = re.compile(r"makespan (\d+) expanded (\d+)\n")


def makespan(plan):
    """When the last step of a plan of whole ticks ends."""
    steps = re.findall(r"(?m)^(\d+): \([^)]*\)(?: \[(\d+)\])?$", plan)
    return max(int(tick) + int(length or 0) for tick, length in steps)


class Solve(Case):
    def test_plans_and_why_there_is_none(self):
        for domain, problem, words, text, status in ROWS:
            with self.subTest(f"{problem!r} {words}"):
                self.comes_to(told_by(text, status), words, {"domain": domain, "problem": problem})

    def test_what_is_found_is_told_where_that_is_asked_for(self):
        files = {"domain": MATCH, "problem": MATCHES}
        self.comes_to(told(MENDED, "makespan 8 expanded 2\n", 0), f"{CALL} --progress", files)
        self.comes_to(told("spent 1\n", "", 1), f"{CALL} --progress --budget 1", files)

    def found(self, words, files, scale=1):
        """What a call writes to both streams, twice the same, where its plan is valid."""
        words = f"{words} --scale {scale}"
        outcome = call(words, files)
        self.assertEqual(outcome.status, 0)
        self.assertEqual(call(words, files), outcome)
        plan = outcome.answers.decode()
        check = f"check domain problem plan --scale {scale}"
        self.comes_to(told("valid\n"), check, {**files, "plan": plan})
        return plan, outcome.faults.decode()

    def test_series_of_problems(self):
        for name, scale, counts in COUNTS:
            for number, (expanded, ends) in enumerate(counts, 1):
                with self.subTest(f"{name}, problem {number}"):
                    files = {"domain": SERIES / name / "domain.pddl", "problem": SERIES / name / f"q0{number}.pddl"}
                    files = {file: path.read_text() for file, path in files.items()}
                    _, told_of = self.found(f"{CALL} --progress", files, scale)
                    self.assertEqual(told_of, f"makespan {ends} expanded {expanded}\n")

    def test_as_many_steps_as_a_plan_may_have(self):
        # each at a tick of its own is found; steps that add may happen at once, so that the least schedule has all of them at 0
        plan, _ = self.found(CALL, {"domain": STEPS, "problem": counted(512)})
        self.assertEqual(plan, "0: (step)\n" * 512)
        outcome = call(f"{CALL} --budget 1000", {"domain": STEPS, "problem": counted(513)})
        self.assertEqual(outcome.status, 1)

    def test_more_actions_than_there_may_be(self):
        files = {"domain": RIDES, "problem": PLACES}
        self.comes_to(told_by(RIDDEN, 0), CALL, files)
        apart = {**files, "problem": PLACES.replace("(at o2))", "(at o3))")}
        self.comes_to(told_by("unreachable\n", 1), CALL, apart)

    def test_more_useful_actions_than_there_may_be(self):
        files = {"domain": FLIGHTS, "problem": AIRPORTS}
        self.comes_to(told_by("0: (ride o0 o2 o0) [3]\n", 0), CALL, files)
        # where the guided search of some of them finds nothing, all have to be looked at
        both = {**files, "problem": AIRPORTS.replace("(at o2))", "(and (at o2) (at o3)))")}
        self.comes_to(told("", "fault ground 2 too-many actions\n", 2), f"{CALL} --budget 8", both)

    def test_mending_by_the_light_of_few_matches(self):
        for fuses in (2, 3, 6):
            with self.subTest(f"{fuses} fuses"):
                self.found(CALL, {"domain": HANDS, "problem": handed(fuses)})

    def test_a_lamp_burns_as_long_as_two_repairs_take_and_no_longer(self):
        plan, _ = self.found(f"{CALL} --horizon 31", {"domain": BRIGHT, "problem": lamp(f"{BOTH} (rested)")})
        self.assertIn("0: (burn) [21]\n", plan)

    def test_better_plans(self):
        files = {"domain": SERIES / "zeno/domain.pddl", "problem": SERIES / "zeno/q03.pddl"}
        files = {file: path.read_text() for file, path in files.items()}
        plan, told_of = self.found(f"{CALL} --improve --progress --budget 400", files)
        ends = [int(end) for end, _ in TOLD.findall(told_of)]
        counts = [int(count) for _, count in TOLD.findall(told_of)]
        self.assertEqual(TOLD.sub("", told_of), "")
        self.assertEqual(ends, sorted(set(ends), reverse=True))
        self.assertEqual(counts, sorted(set(counts)))
        self.assertLess(counts[-1], 400)
        self.assertEqual(makespan(plan), ends[-1])
        self.assertLess(ends[-1], ends[0])
        first, _ = self.found(CALL, files)
        self.assertEqual(makespan(first), ends[0])

    def test_files_that_stop_a_search(self):
        with self.subTest("the domain is not there"):
            self.comes_to(told("", "fault file 1 read domain\n", 3), CALL, {"problem": TOGGLED})
        with self.subTest("a problem of another domain"):
            self.comes_to(told_by("fault problem 4 unknown 29\n", 2), CALL, {"domain": MATCH, "problem": TOGGLED})
        with self.subTest("a number past 10^15"):
            self.comes_to(told_by("fault search 2 range\n", 2), CALL, {"domain": SUPPLY, "problem": OWED})
        with self.subTest("no room for the plan"):
            files = {"domain": MATCH, "problem": MATCHES}
            self.comes_to(told(MENDED[:9], "fault script 2 write\n", 3), CALL, files, room=9)
