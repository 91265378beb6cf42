"""Domains, problems, plans and journals that are cut at each byte, and texts at the edges of length and depth."""
import re

from program import LOG, Case, call, many_calls, told, world

CHECK = "check domain problem plan"

# domains, each with a problem
MATCH = (world("MATCH"), world("MATCHES"))

TOGGLE = (world("TOGGLE"), world("TOGGLED"))

TANK = (world("TANK"), world("EMPTY_TANK"))

CHARGE = (world("CHARGE"), world("UNCHARGED"))

# plans of these, and the words of the call
PLANS = (
    (MATCH, "0: (light-match m1) [8]\n0: (mend-fuse f1) [5]\n", CHECK),
    (MATCH, "0: (light-match m1) [8]\n3: (mend-fuse f1) [5]\n", CHECK),
    (MATCH, "0: (light-match m1) [8]\n4: (mend-fuse f1) [5]\n", CHECK),
    (TOGGLE, "3: (need)\n3: (drop)\n", CHECK),
    (TOGGLE, "3: (need)\n4: (drop)\n", CHECK),
    (TOGGLE, "3: (drop)\n4: (need)\n", CHECK),
    (TOGGLE, "0: (watch) [5]\n2: (give)\n3: (drop)\n", CHECK),
    (TANK, "1: (fill-a)\n1: (fill-b)\n", CHECK),
    (TANK, "0: (hold) [4]\n1: (fill-a)\n1: (fill-b)\n", CHECK),
    (CHARGE, "0: (charge) [4]\n", CHECK),
    (CHARGE, "0: (rest) [4]\n", CHECK),
    (CHARGE, "0: (charge) [7]\n", CHECK),
    (CHARGE, "0.001: (charge) [2.000]\n", f"{CHECK} --scale 1000"),
    (CHARGE, "0.001: (charge) [4.000]\n", f"{CHECK} --scale 1000"),
    (CHARGE, "0.001: (charge) [4.5]\n", f"{CHECK} --scale 1000"),
    (CHARGE, "0.0005: (charge) [4]\n", f"{CHECK} --scale 1000"),
)

# what may come of a plan that is cut: a verdict, or a fault of the plan; and the exit status of each
VERDICTS = (
    (r"valid\n", "", 0),
    (r"invalid \d+ (condition \d+|interferes \d+ \d+|over-all \d+|duration \d+|undefined \d+|goal)\n", "", 1),
    ("", r"fault plan (2 line|3 no-action|4 not-ticks|6 no-duration|7 horizon) \d+\n", 2),
)

# seven pairs of a network of bounds alone
NIGHT = (
    "journal 1\nnetwork 2 100\nbare\n> add o 0 10\n< bound 0\n> add 0 o -3\n< bound 1\n"
    "> window 0\n< window 3 10\n> window 1\n< window 0 100\n> add 0 o -11\n"
    "< refused conflict new b0\n> window 0\n< window 3 10\n> add o 1 7\n< bound 2\n"
)

# the greatest length of a text
MOST = 1_048_576

# domains at the edges, and what is wrong with them
EDGES = (
    (64 * "(" + 64 * ")", "3 shape 0"),
    (65 * "(", "2 text 6 depth 64"),
    (64 * "(", "2 text 4 unclosed 0"),
    ((MOST + 1) * " ", "2 text 2 too-long"),
    ("(a" + (MOST - 3) * " " + ")", "3 shape 0"),
)


def fault_of_a_beginning(part, count):
    return f"fault {part} 2 text {'4 unclosed 0' if count else '7 empty'}\n"


def found_in_a_beginning(text):
    """What an audit finds of a journal's beginning: pairs, if nothing else is there, or the line where the format breaks."""
    whole = text.count("\n")
    if text.endswith("\n") and whole >= 3 and whole % 2 == 1:
        return told(f"audit ok {(whole - 3) // 2}\n")
    return told("", f"fault journal 3 line {whole + 1}\n", 2)


class CutTexts(Case):
    def each_beginning_is_refused(self, part, text, files):
        """Each beginning of the text that lacks its last parenthesis is refused, as that part of the files."""
        for count in range(text.rindex(")") + 1):
            with self.subTest(f"{count} bytes"):
                fault = fault_of_a_beginning(part, count)
                self.comes_to(told("", fault, 2), CHECK, {**files, part: text[:count]})

    @many_calls
    def test_no_beginning_of_a_domain_is_read(self):
        self.each_beginning_is_refused("domain", MATCH[0], {})

    @many_calls
    def test_no_beginning_of_a_problem_is_read(self):
        self.each_beginning_is_refused("problem", MATCH[1], {"domain": MATCH[0]})

    @many_calls
    def test_each_beginning_of_a_plan_is_judged_or_refused(self):
        for (domain, problem), plan, words in PLANS:
            for count in range(len(plan)):
                with self.subTest(f"{plan[:count]!r}"):
                    found = call(words, {"domain": domain, "problem": problem, "plan": plan[:count]})
                    fits = [
                        re.fullmatch(answers, found.answers.decode()) and re.fullmatch(faults, found.faults.decode())
                        for answers, faults, status in VERDICTS
                        if found.status == status
                    ]
                    self.assertTrue(fits and fits[0], found)

    @many_calls
    def test_each_beginning_of_a_journal_is_audited(self):
        for count in range(len(NIGHT) + 1):
            with self.subTest(f"{count} bytes"):
                self.comes_to(found_in_a_beginning(NIGHT[:count]), "audit night.log", {LOG: NIGHT[:count]})

    @many_calls
    def test_texts_at_the_edges_of_length_and_depth(self):
        for domain, why in EDGES:
            with self.subTest(f"{domain[:3]!r} and so on, {len(domain)} bytes"):
                self.comes_to(told("", f"fault domain {why}\n", 2), CHECK, {"domain": domain})
        files = {"domain": CHARGE[0], "problem": CHARGE[1], "plan": "0: (rest) [4]\n"}
        for part in files:
            with self.subTest(f"a {part} of the greatest length"):
                self.comes_to(told("valid\n"), CHECK, {**files, part: files[part].ljust(MOST)})
