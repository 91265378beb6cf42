"""What `--explain` adds behind the lines of the program, to the byte; the rest of each call stays as it is without it.

Each file of tests/explain is a case: parts behind lines `==== NAME`. They are the words of the call, its files by their names, its input,
and what comes of it: the status, the answers, the fault line, and the explanation that follows it with `--explain`. A part behind
`==== NAME, cut` ends without the last end of a line."""
import pathlib

from program import Case, call, differences, told, whole

CASES = pathlib.Path(__file__).resolve().parent / "explain"
OWN = ("words", "input", "status", "answers", "fault", "explanation")


def parts_of(case):
    """The parts of a case by their names."""
    parts = {}
    for part in (b"\n" + case.read_bytes().removesuffix(b"\n")).split(b"\n==== ")[1:]:
        name, _, text = part.partition(b"\n")
        name = name.decode()
        if name.endswith(", cut"):
            parts[name.removesuffix(", cut")] = text
        else:
            parts[name] = text + b"\n" if text else b""
    return parts


class Explanations(Case):
    def comes_to_its_parts(self, case, words, faults):
        parts = parts_of(case)
        files = {name: text for name, text in parts.items() if name not in OWN}
        wanted = told(parts.get("answers", b""), b"".join(parts.get(name, b"") for name in faults), int(parts["status"]))
        with self.subTest(case.name):
            apart = differences(wanted, call(parts["words"].decode().strip() + words, files, whole(parts.get("input", b""))))
            if apart:
                self.fail("\n".join(apart))

    def test_explanations_follow_the_lines_of_the_program(self):
        for case in sorted(CASES.iterdir()):
            self.comes_to_its_parts(case, " --explain", ("fault", "explanation"))

    def test_nothing_follows_them_where_none_is_asked_for(self):
        for case in sorted(CASES.iterdir()):
            self.comes_to_its_parts(case, "", ("fault",))

    def test_plans_and_networks_that_are_too_large_are_told(self):
        domain = """(define (domain lamp)
  (:predicates (lit) (seen))
  (:action look :precondition (lit) :effect (seen))
  (:action dim :effect (not (lit))))
"""
        problem = "(define (problem evening) (:domain lamp) (:init (lit)) (:goal (seen)))\n"
        # each of 256 steps that read comes before each of 256 that write, and none is between two others
        crossed = "0: (look)\n" * 256 + "2: (dim)\n" * 256
        for words, plan, faults in (
            ("net", crossed, "fault net 2 too-many\nplan.txt: error: the network has more than 65535 bounds\nhelp: fewer steps that write what others read\n"),
            ("check", "0: (look)\n" + " " * 1_048_576, "fault file 3 too-long plan.txt\nplan.txt: error: the file has more than 1048576 bytes\nhelp: divide the plan\n"),
        ):
            files = {"domain.pddl": domain, "problem.pddl": problem, "plan.txt": plan}
            with self.subTest(words):
                found = call(f"{words} domain.pddl problem.pddl plan.txt --explain", files)
                self.assertEqual([], differences(told("", faults, 2), found))
