"""Domains and problems that are refused, each for its fault at its place, worked by hand."""
from program import Case, call, many_calls, told

CHECK = "check domain problem plan"

# texts of domains, by their fault; ^ stands before the byte that the line tells, and is none of the text
DOMAINS = {
    "2 text 4 unclosed AT": (
        "^(define (domain d)",
    ),
    "2 text 5 extra AT": (
        "(define (domain d)) ^x",
    ),
    "2 text 7 empty": (
        "",
    ),
    "3 shape AT": (
        "^define",
        "^(defined (domain d))",
        "(define ^(problem d))",
        "(define ^(domain 1))",
        "^(define (domain d) word)",
        "(define (domain d) ^(:unknown))",
        "(define (domain d) ^())",
        "(define (domain d) ^(:requirements typing))",
        "(define (domain d) ^(:types a -))",
        "(define (domain d) ^(:predicates p))",
        "(define (domain d) (:predicates ^(p x)))",
        "(define (domain d) (:predicates ^(p ?duration)))",
        "(define (domain d) ^(:action))",
        "(define (domain d) ^(:action a :condition ()))",
        "(define (domain d) ^(:action a :effect))",
        "(define (domain d) ^(:durative-action a))",
        "(define (domain d) ^(:durative-action a :duration () :precondition ()))",
    ),
    "4 unknown AT": (
        "(define (domain d) (:constants a - ^t))",
        "(define (domain d) (:predicates (p ?x - (either object ^t))))",
        "(define (domain d) (:action a :effect (^p)))",
        "(define (domain d) (:predicates (p ?x)) (:action a :effect (p ^?y)))",
        "(define (domain d) (:predicates (p ?x)) (:action a :effect (p ^k)))",
        "(define (domain d) (:action a :parameters (?x) :precondition (= ?x ^k)))",
    ),
    "5 twice AT": (
        "(define (domain d) (:types a b ^A))",
        "(define (domain d) (:constants a b ^a))",
        "(define (domain d) (:predicates (a) (b) (^a ?x)))",
        "(define (domain d) (:functions (a) - number (^a ?x)))",
        "(define (domain d) (:action a) (:durative-action ^a :duration ()))",
        "(define (domain d) (:predicates (p ?x ^?x)))",
        "(define (domain d) (:action a :parameters (?x - object ^?x)))",
        "(define (domain d) (:types a) (^:types b))",
        "(define (domain d) (:action a :effect () ^:effect ()))",
    ),
    "6 types AT": (
        "(define (domain d) ^(:types a - b b - a))",
        "(define (domain d) ^(:types a - a))",
        "(define (domain d) ^(:types object - a))",
        "(define (domain d) (:types a b) (:predicates (p ?x - a)) (:action n :parameters (?y - b) :effect ^(p ?y)))",
        "(define (domain d) (:types a b) (:predicates (p ?x ?y - a)) (:action n :parameters (?y - a ?z) :effect ^(p ?y ?z)))",
        "(define (domain d) (:predicates (p ?x)) (:action n :effect ^(p)))",
        "(define (domain d) (:action n :parameters (?x) :precondition ^(= ?x 5)))",
        "(define (domain d) (:action n :parameters (?x) :precondition ^(= 5 ?x)))",
    ),
}

# the same of a section behind those of two predicates
SECTIONS = {
    "3 shape AT": (
        "^(:action a :precondition p)",
        "^(:action a :parameters p)",
        "^(:action a :effect p)",
        "^(:durative-action a :duration p)",
        "^(:durative-action a :duration () :condition p)",
        "^(:durative-action a :duration () :effect p)",
        "(:action a :precondition ^(and (p) p))",
        "(:action a :precondition (and (p) ^(not p)))",
        "(:action a :precondition ^(forall p (p)))",
        "(:action a :precondition ^(exists (?x) p))",
        "(:action a :effect ^(and (p) p))",
        "(:action a :effect ^(not p))",
        "(:action a :effect ^(forall p (p)))",
        "(:action a :effect ^(forall (?x) p))",
        "(:action a :effect ^(assign p 1))",
        "(:durative-action a :duration ^(and p))",
        "(:durative-action a :duration ^(at start p))",
        "(:durative-action a :duration () :condition ^(at start p))",
        "(:durative-action a :duration () :effect ^(at end p))",
    ),
}

# the same behind those of two predicates and a function
LEFT_OUT = {
    "7 left-out AT when": (
        "(:action a :effect ^(when (p) (q)))",
        "(:durative-action a :duration () :effect (at end ^(when (p) (q))))",
        "(:durative-action a :duration () :effect ^(when (p) (at end (q))))",
    ),
    "7 left-out AT division": (
        "(:action a :precondition (< ^(/ (f) 2) 1))",
    ),
    "7 left-out AT scale-down": (
        "(:action a :effect ^(scale-down (f) 2))",
    ),
    "7 left-out AT number": (
        "(:action a :precondition (< (f) ^2.5))",
        "(:action a :precondition (< (f) ^9223372036854775808))",
    ),
    "7 left-out AT at-end-duration": (
        "(:durative-action a :duration ^(at end (= ?duration 1)))",
    ),
    "7 left-out AT duration-in-condition": (
        "(:action a :precondition ^(< (f) ?duration))",
        "(:durative-action a :duration () :condition (over all ^(<= ?duration 5)))",
        "(:action a :parameters (?x) :precondition ^(= ?x ?duration))",
        "(:durative-action a :duration () :condition (over all ^(= ?duration ?x)))",
    ),
    "7 left-out AT continuous": (
        "(:durative-action a :duration () :effect (increase (f) ^(* #t 1)))",
        "(:durative-action a :duration () :effect ^(increase (f) #t))",
    ),
    "7 left-out AT derived": (
        "^(:derived (p) (q))",
    ),
    "7 left-out AT constraint": (
        "^(:constraints ())",
    ),
    "7 left-out AT preference": (
        "(:action a :precondition ^(preference n (p)))",
        "(:durative-action a :duration () :condition ^(preference n (over all (p))))",
    ),
    "7 left-out AT either": (
        "(:constants a - ^(either object object))",
    ),
    "7 left-out AT operands": (
        "(:action a :precondition (< (f) ^(+ 1 2 3)))",
        "(:action a :precondition (< (f) ^(* 1 2 3)))",
    ),
}

# a section that is left out where there is no other of functions
OBJECT_FUNCTIONS = "^(:functions (g) - object)"

# what fits below a list of types, and what does not: types of a variable, and of the parameter that it is given to
FIT = (
    ("f e d c b a", "g h c b a"),
    ("a b c d e f", "a b c d e f"),
    ("a b f e d c g h", "a b h g object"),
    ("f e d c b a f e d c", "object a b c d"),
    ("f", "a b c d e a b c d e a b c d e a b h"),
    ("c", "h a b d e a b d e a b d e a b d e g"),
    ("h", "a b c d e a b c d e a b c d e a b h"),
)

NO_FIT = (
    ("e d c b f", "g a b c d"),
    ("a b c d e h", "a b c d e f"),
    ("a b c d e g h", "a b c d e f h"),
    ("object a b c d", "g h a b c"),
    ("f", "a b c d e a b c d e a b c d e a b g"),
    ("h", "a b c d e f a b c d e f a b c d e f"),
    ("object", "a b c d e a b c d e a b c d e g h"),
)

CHOICES = "(define (domain d) (:types a b c d e - g f - h) (:predicates (p ?x - (either {}))) (:action n :parameters (?y - (either {})) :effect ^(p ?y)))"

# the rest of an action whose variables have long lists of types
ASKED = (
    ":precondition (and (p ?y) (P ?Z) (q ?y ?z ?z) (q ?z ?z ?y))",
    ":precondition (forall (?w - f) (and (p ?y) (exists (?z - g) (p ?y))))",
    ":precondition (forall (?y - (either f h f h f h f h f h f h f h f h f h f h)) (and (= (p ?y) 0) (p ?z))) :effect (p ?y)",
    ":effect (forall (?y - (either f h f h f h f h f h f h f h f h f h f h)) (increase (p ?y) 1))",
)

ASKED_WRONG = (
    ":precondition (= ^(p ?y) 0)",
    ":precondition (and (p ?y) (forall (?y - (either f h f h f h f h f h f h f h f h f h f h)) ^(p ?y)))",
    ":precondition (forall (?y - (either f h f h f h f h f h f h f h f h f h f h)) (and (= (p ?y) 0) (= ^(p ?z) 0)))",
    ":precondition (and (p ?y) (q ?y ?z ?y) ^(q ?y ?z))",
    ":precondition (and (p ?y) ^(p ?y ?y))",
)

FIVE = 4 * "a b c d e "

BOTH = 9 * "f h "

MANY_TYPES = f"""(define (domain d) (:types a b c d e - g f - h)
 (:predicates (p ?x - (either {FIVE})) (q ?u ?v - (either {FIVE}) ?w))
 (:functions (p ?x - (either {BOTH})))
 (:action n :parameters (?y ?z - (either {FIVE})) """

# effects of an action of ten variables, of which the ninth has another type
TEN = (
    "(define (domain d) (:types t u) (:predicates (p ?x - t))"
    " (:action n :parameters (?a ?b ?c ?d ?e ?f ?g ?h ?i - u ?j - t) :effect {}))"
)

TEN_RIGHT = ("(p ?j)", "(forall (?a ?b - t) (p ?b))", "(forall (?i - t) (and (p ?i) (p ?j)))")

TEN_WRONG = ("^(p ?a)", "^(p ?i)", "(forall (?j - u) ^(p ?j))")

# an inner variable hides an outer one of the same name: an action that is right, and others
INNER = "(define (domain d) (:types a b) (:predicates (p ?x - a)) {})"

INNER_RIGHT = "(:action n :parameters (?x - b) :precondition (forall (?x - a) (p ?x)))"

INNER_WRONG = (
    "(:action n :parameters (?x - a) :precondition (forall (?x - b) ^(p ?x)))",
    "(:action n :parameters (?x - a) :effect (forall (?x - b) ^(p ?x)))",
)

# two faults, of which one is told
TWO = "(define (domain d) (:action a :effect (p)) (:action b :effect (when (q) (q))))"

# the domain of all problems
FUSES = """(define (domain match)
 (:types match fuse)
 (:constants spare - fuse)
 (:predicates (light) (unused ?m - match) (mended ?f - fuse) (at ?f - fuse ?m - match))
 (:functions (level) (length ?f - fuse)))"""

# texts of problems, by their fault
PROBLEMS = {
    "2 text 7 empty": (
        "",
        "; nothing",
    ),
    "2 text 4 unclosed AT": (
        "^(define (problem p)",
    ),
    "2 text 5 extra AT": (
        "(define (problem p)) ^x",
    ),
    "2 text 3 bad-byte AT": (
        "(define ^\u007f)",
    ),
    "3 shape AT": (
        "^(define (problem p))",
        "^(definer (problem p) (:domain match) (:goal ()))",
        "(define ^(problems p) (:domain match) (:goal ()))",
        "(define ^(problem) (:domain match) (:goal ()))",
        "(define ^(problem 5) (:domain match) (:goal ()))",
        "^(define p (:domain match) (:goal ()))",
        "(define (problem p) ^(domain match) (:goal ()))",
        "^word",
        "^()",
        "(define (problem p) (:domain match) ^(:initial) (:goal ()))",
        "(define (problem p) (:domain match) ^() (:goal ()))",
        "(define (problem p) (:domain match) ^((:init)) (:goal ()))",
        "^(define (problem p) (:domain match) goal (:goal ()))",
        "(define (problem p) (:domain match) ^(:requirements typing) (:goal ()))",
        "(define (problem p) (:domain match) ^(:requirements (:typing)) (:goal ()))",
        "^(define (problem p) (:domain match) (:init (light)))",
        "(define (problem p) (:domain match) ^(:goal))",
        "(define (problem p) (:domain match) ^(:goal (light) (light)))",
        "(define (problem p) (:domain match) ^(:goal light))",
        "(define (problem p) (:domain match) (:objects a - ^(match fuse)) (:goal ()))",
        "(define (problem p) (:domain match) ^(:objects a 5) (:goal ()))",
        "(define (problem p) (:domain match) ^(:objects (a)) (:goal ()))",
        "(define (problem p) (:domain match) ^(:objects - match) (:goal ()))",
        "(define (problem p) (:domain match) ^(:objects a -) (:goal ()))",
        "(define (problem p) (:domain match) ^(:objects ?a) (:goal ()))",
        "(define (problem p) (:domain match) (:init ^(not)) (:goal ()))",
        "(define (problem p) (:domain match) (:init ^(not light)) (:goal ()))",
        "(define (problem p) (:domain match) (:init ^(= level 1)) (:goal ()))",
        "(define (problem p) (:domain match) (:init ^(not (light) (light))) (:goal ()))",
        "(define (problem p) (:domain match) (:init ^(= (level) (level))) (:goal ()))",
        "(define (problem p) (:domain match) (:init ^(= (level) spare)) (:goal ()))",
        "(define (problem p) (:domain match) (:init ^(= (level) ?duration)) (:goal ()))",
        "(define (problem p) (:domain match) (:init ^(= (level))) (:goal ()))",
        "(define (problem p) (:domain match) ^(:init light) (:goal ()))",
        "(define (problem p) (:domain match) (:init ^()) (:goal ()))",
        "(define (problem p) (:domain match) (:init ^((light))) (:goal ()))",
    ),
    "4 unknown AT": (
        "(define (problem p) (:domain ^other) (:goal ()))",
        "(define (problem p) (:domain match) (:objects a - fuse b c - ^wire) (:goal ()))",
        "(define (problem p) (:domain match) (:init (^bright)) (:goal ()))",
        "(define (problem p) (:domain match) (:init (unused ^m1)) (:goal ()))",
        "(define (problem p) (:domain match) (:objects m1 - match) (:init (unused ^?m)) (:goal ()))",
        "(define (problem p) (:domain match) (:init (not (^bright))) (:goal ()))",
        "(define (problem p) (:domain match) (:init (= (^light) 3)) (:goal ()))",
        "(define (problem p) (:domain match) (:goal (^bright)))",
        "(define (problem p) (:domain match) (:goal (mended ^f1)))",
    ),
    "5 twice AT": (
        "(define (problem p) (:domain match) (:goal ()) (^:goal ()))",
        "(define (problem p) (:domain match) (:init) (:goal ()) (^:INIT))",
        "(define (problem p) (:domain match) (:length) (:metric) (:goal ()) (^:length))",
        "(define (problem p) (:domain match) (:objects m1 - match ^spare - fuse) (:goal ()))",
        "(define (problem p) (:domain match) (:objects a b - fuse ^A - match) (:goal ()))",
        "(define (problem p) (:domain match) (:init (light) (not ^(light))) (:goal ()))",
        "(define (problem p) (:domain match) (:init (not (light)) (mended spare) ^(LIGHT)) (:goal ()))",
        "(define (problem p) (:domain match) (:objects f - fuse) (:init (mended f) (mended spare) (not ^(mended f))) (:goal ()))",
        "(define (problem p) (:domain match) (:init (= (level) 1) (= ^(level) 1)) (:goal ()))",
        "(define (problem p) (:domain match) (:objects f - fuse) (:init (= (length f) 1) (= (length spare) 2) (= ^(length F) 3)) (:goal ()))",
    ),
    "7 left-out AT constraint": (
        "(define (problem p) (:domain match) ^(:constraints (light)) (:goal ()))",
    ),
    "7 left-out AT either": (
        "(define (problem p) (:domain match) (:objects a - ^(either match fuse)) (:goal ()))",
    ),
    "6 types AT": (
        "(define (problem p) (:domain match) (:init ^(unused spare)) (:goal ()))",
        "(define (problem p) (:domain match) (:init ^(light spare)) (:goal ()))",
        "(define (problem p) (:domain match) (:init (mended spare)) (:goal ^(unused spare)))",
    ),
    "7 left-out AT timed-literal": (
        "(define (problem p) (:domain match) (:init ^(at 5 (light))) (:goal ()))",
        "(define (problem p) (:domain match) (:init (light) ^(AT 2.5 (not (light)))) (:goal ()))",
    ),
    "7 left-out AT number": (
        "(define (problem p) (:domain match) (:init (= (level) ^9223372036854775808)) (:goal ()))",
        "(define (problem p) (:domain match) (:init (= (level) ^2.5)) (:goal ()))",
    ),
}


def marked(text):
    """A text without its mark, and where that stands."""
    before, _, behind = text.partition("^")
    return before + behind, len(before.encode())


class Syntax(Case):
    def is_refused(self, part, text, fault, files):
        """A text is refused as that part of the files, for that fault at its mark."""
        with self.subTest(text):
            text, at = marked(text)
            line = f"fault {part} {fault.replace('AT', str(at))}\n"
            self.comes_to(told("", line, 2), CHECK, {**files, part: text})

    def is_read(self, text):
        """A domain is read, and then its problem is looked for."""
        with self.subTest(text):
            self.comes_to(told("", "fault file 1 read problem\n", 3), CHECK, {"domain": marked(text)[0]})

    def are_refused(self, part, groups, around="{}", files={}):
        for fault, texts in groups.items():
            for text in texts:
                self.is_refused(part, around.format(text), fault, files)

    @many_calls
    def test_domains_are_refused(self):
        self.are_refused("domain", DOMAINS)

    def test_sections_of_domains_are_refused(self):
        self.are_refused("domain", SECTIONS, "(define (domain d) (:predicates (p) (q)) {})")

    @many_calls
    def test_constructs_are_left_out(self):
        self.are_refused("domain", LEFT_OUT, "(define (domain d) (:predicates (p) (q)) (:functions (f)) {})")
        fault = {"7 left-out AT object-fluent": (OBJECT_FUNCTIONS,)}
        self.are_refused("domain", fault, "(define (domain d) (:predicates (p) (q)) {})")

    def test_lists_of_types_that_fit_and_others(self):
        for argument, parameter in FIT:
            self.is_read(CHOICES.format(parameter, argument))
        for argument, parameter in NO_FIT:
            self.is_refused("domain", CHOICES.format(parameter, argument), "6 types AT", {})

    def test_variables_of_many_types(self):
        for action in ASKED:
            self.is_read(f"{MANY_TYPES}{action}))")
        for action in ASKED_WRONG:
            self.is_refused("domain", f"{MANY_TYPES}{action}))", "6 types AT", {})

    def test_variables_are_found_among_many(self):
        for effect in TEN_RIGHT:
            self.is_read(TEN.format(effect))
        for effect in TEN_WRONG:
            self.is_refused("domain", TEN.format(effect), "6 types AT", {})

    def test_inner_variables_hide_outer_ones(self):
        self.is_read(INNER.format(INNER_RIGHT))
        for action in INNER_WRONG:
            self.is_refused("domain", INNER.format(action), "6 types AT", {})

    def test_one_of_two_faults_is_told(self):
        found = call(CHECK, {"domain": TWO})
        self.assertIn(found.faults, (b"fault domain 4 unknown 39\n", b"fault domain 7 left-out 62 when\n"))
        self.assertEqual((found.answers, found.status), (b"", 2))

    @many_calls
    def test_problems_are_refused(self):
        self.are_refused("problem", PROBLEMS, files={"domain": FUSES})
