#!/usr/bin/env python3
"""Times the built program on realistic input. It prints numbers and judges nothing.

    bench/run.py [--full] [--check | --search | --network | --journals | --split | --accidents] [PROGRAM]

PROGRAM is a built `tempo`; without it, the program is proved and built by `rt run` first. Without a
group, all run. `--full` adds 65,535 bounds in force and 1,024 events that are dispatched one tick
after another, which takes minutes. Each list of commands is read from a file by a process of its own;
the time of a single command is from writing it to reading its answer, the mean of all. Other times
are those of the whole process, the best of three, or where one takes seconds the first; memory is the
greatest that the process held.
"""
import os
import pathlib
import random
import subprocess
import sys
import tempfile
import time

ROOT = pathlib.Path(__file__).resolve().parent.parent
EVENTS = 1024
HORIZON = 1_000_000_000
HEAD = f"network {EVENTS} {HORIZON}"
# a text that is slow by accident may take so many seconds
PATIENCE = 10
# the ticks of a unit of each example's time
SCALES = {"observatory": 1, "rover": 1, "test-bench": 1000}


def built():
    """Proves and builds the program. Returns where it is."""
    crate = ROOT / "crates" / "tempo"
    subprocess.run(["rt", "run"], cwd=crate, check=True, stdin=subprocess.DEVNULL, stdout=subprocess.DEVNULL)
    return crate / "out" / "tempo"


def once(words, source, sink):
    """Runs a call from a file to a file. Returns its time, processor time, status and greatest memory in megabytes."""
    with open(source) as given, open(sink, "w") as taken:
        begin = time.perf_counter()
        child = subprocess.Popen([str(word) for word in words], stdin=given, stdout=taken, stderr=subprocess.STDOUT)
        _, status, used = os.wait4(child.pid, 0)
        took = time.perf_counter() - begin
    return took, used.ru_utime + used.ru_stime, os.waitstatus_to_exitcode(status), used.ru_maxrss // 1024


def best_of(words, source, sink):
    """The best of three, or where one takes seconds the first."""
    best = None
    for _ in range(3):
        ran = once(words, source, sink)
        best = ran if best is None else min(best, ran)
        if ran[0] > 2:
            break
    return best


def timed(program, name, command, texts, options=(), given=""):
    """A call with texts as files: its time, memory, status and the first line that it prints. Returns its time."""
    with tempfile.TemporaryDirectory() as room:
        files = [pathlib.Path(room, str(at)) for at in range(len(texts))]
        for file, text in zip(files, texts):
            file.write_text(text)
        source, sink = pathlib.Path(room, "in"), pathlib.Path(room, "out")
        source.write_text(given)
        took, busy, status, memory = best_of([program, command, *files, *options], source, sink)
        said = (sink.read_text().splitlines() or [""])[0][:60]
    print(f"{name:62} {took:8.3f} s, busy {busy:8.3f} s  {memory:4} MB  status {status}  {said}", flush=True)
    return took


def has_command(program, name):
    """Whether the program has a command of that name."""
    return f"\n  {name} " in subprocess.run([program, "--help"], capture_output=True, text=True).stdout


def each(form, count):
    """So many texts with a number in the place of #."""
    return " ".join(form.replace("#", str(k)) for k in range(count))


# ---- lists of commands


def mixed(count):
    """Bounds with the origin, withdrawals and windows, up to 400 bounds in force at a time."""
    draw = random.Random(1)
    lines, next_id, in_force = [], 0, []
    for _ in range(count):
        event = draw.randrange(EVENTS)
        kind = draw.randrange(4)
        if kind < 2 and len(in_force) < 400:
            upper = f"add o {event} {draw.randrange(500_000_000, HORIZON)}"
            lower = f"add {event} o -{draw.randrange(400_000_000)}"
            lines.append(upper if kind == 0 else lower)
            in_force.append(next_id)
            next_id += 1
        elif kind == 2 and in_force:
            lines.append(f"withdraw {in_force.pop(draw.randrange(len(in_force)))}")
        else:
            lines.append(f"window {event}")
    return lines


def chain():
    """Each event 1 to 10 ticks after the one before: 2,046 bounds."""
    return [line for event in range(EVENTS - 1) for line in (f"add {event} {event + 1} 10", f"add {event + 1} {event} -1")]


def chain_from_its_end():
    """The same bounds, those of the last events first."""
    lines = chain()
    return [line for event in reversed(range(EVENTS - 1)) for line in lines[2 * event : 2 * event + 2]]


def loose(count):
    """Bounds between events of the chain that it leaves room for."""
    draw = random.Random(2)
    lines = []
    for _ in range(count):
        one = draw.randrange(EVENTS - 1)
        other = draw.randrange(one + 1, EVENTS)
        lines.append(f"add {one} {other} {10 * (other - one) + draw.randrange(1000)}")
    return lines


def dispatches(count, now):
    """So many events, each dispatched one tick after the one before."""
    return [line for event in range(count) for line in (f"advance {now + event}", f"dispatch {event}")]


class Session:
    """A run whose commands are written one after another."""

    def __init__(self, program):
        self.process = subprocess.Popen([str(program)], stdin=subprocess.PIPE, stdout=subprocess.PIPE, text=True, bufsize=1)
        self.process.stdin.write(HEAD + "\n")

    def ask(self, line):
        self.process.stdin.write(line + "\n")
        return self.process.stdout.readline()

    def timed(self, name, lines):
        """Writes the commands, and prints how long their answers took."""
        begin = time.perf_counter()
        answers = [self.ask(line) for line in lines]
        took = time.perf_counter() - begin
        refused = sum(answer.startswith("refused") for answer in answers)
        print(f"{name:62} {took:8.3f} s  {1000 * took / len(lines):9.4f} ms each  {refused} of {len(lines)} refused", flush=True)

    def close(self):
        self.process.stdin.close()
        self.process.wait()


def changes(program, name, bounds, count):
    """Single commands over bounds that are in force: so many of each kind, each kind at its worst."""
    session = Session(program)
    session.timed(f"{name}: {len(bounds):,} bounds", bounds)
    session.timed(f"{name}: bounds that change nothing", loose(count))
    session.timed(f"{name}: bounds that narrow each window", [f"add o {EVENTS - 1} {HORIZON - 20_000 * (k + 1)}" for k in range(count)])
    session.timed(f"{name}: bounds that are refused", [f"add {EVENTS - 1} 0 -{20_000 + k}" for k in range(count)])
    session.timed(f"{name}: windows", [f"window {k}" for k in range(10 * count)])
    session.timed(f"{name}: steps of now", [f"advance {k + 1}" for k in range(count)])
    session.timed(f"{name}: withdrawals", [f"withdraw {2 * k}" for k in range(count)])
    session.timed(f"{name}: steps of now and dispatches", dispatches(count, count))
    session.close()


def commands(program, name, lines):
    """A list of commands as the input of one process."""
    timed(program, name, "bare", (), (), "".join(f"{line}\n" for line in [HEAD, *lines]))


def network(program, full):
    commands(program, "20,000 windows", [f"window {k % EVENTS}" for k in range(20_000)])
    commands(program, "20,000 mixed lines, up to 400 bounds in force", mixed(20_000))
    commands(program, "100 reports of 1,024 events", ["report"] * 100)
    commands(program, "a chain of 1,024 events, 2,046 bounds", chain())
    changes(program, "chain", chain(), 20)
    changes(program, "chain from its end", chain_from_its_end(), 20)
    if full:
        dense = chain() + loose(65_515 - 2_046)
        changes(program, "dense", dense, 5)
        session = Session(program)
        for line in dense:
            session.ask(line)
        session.timed("dense: each event dispatched", dispatches(EVENTS, 0))
        session.close()


# ---- tasks and plans

PLACES = """(define (domain places)
 (:types robot place)
 (:predicates (free ?r - robot) (open ?p - place) (seen ?r - robot ?p - place))
 (:functions (energy ?r - robot) (visits ?p - place))
 (:action mark :parameters (?r - robot ?p - place) :precondition (not (seen ?r ?p)) :effect (seen ?r ?p))
 (:durative-action visit :parameters (?r - robot ?p - place) :duration (and (>= ?duration 2) (<= ?duration (energy ?r)))
  :condition (and (at start (free ?r)) (over all (open ?p)) (over all (>= (energy ?r) 1)) (at end (not (seen ?r ?p))))
  :effect (and (at start (not (free ?r))) (at start (increase (visits ?p) 1)) (at end (free ?r)) (at end (decrease (energy ?r) 1))
   (at end (seen ?r ?p)))))
"""
ROBOTS, ROOMS = 32, 125
YARD = """(define (domain yard) (:types truck place gauge)
 (:predicates (at ?t - truck ?p - place) (idle ?t - truck) (free ?g - gauge))
 (:durative-action drive :parameters (?t - truck ?p - place) :duration (= ?duration 5)
  :condition (and (at start (exists (?g - gauge) (free ?g))) (over all (exists (?g - gauge) (free ?g))))
  :effect (and (at start (not (idle ?t))) (at end (at ?t ?p)) (at end (idle ?t)))))"""
SHIFTS = """(define (domain shifts) (:predicates (open))
 (:durative-action look :parameters () :duration (and (>= ?duration 2) (<= ?duration 9)) :condition (at start (open)) :effect ())
 (:durative-action shut :parameters () :duration (and (>= ?duration 2) (<= ?duration 9)) :effect (at start (not (open)))))
"""
SHIFTED = "(define (problem q) (:domain shifts) (:init (open)) (:goal ()))"
ROADS = """(define (domain roads) (:predicates (at ?p) (road ?p ?q))
 (:action drive :parameters (?by ?from ?to) :precondition (and (at ?from) (road ?from ?to) (= ?by ?from))
  :effect (and (not (at ?from)) (at ?to))))"""
LAMPS = """(define (domain lamps) (:predicates (on ?l) (off ?l) (never))
 (:action light :parameters (?l) :precondition (off ?l) :effect (and (on ?l) (not (off ?l)))))"""


def places():
    """32 robots and 125 places: some 4,000 atoms and 8,000 ground actions."""
    initial = f"{each('(free r#) (= (energy r#) 1000)', ROBOTS)} {each('(open p#) (= (visits p#) 0)', ROOMS)}"
    objects = f"{each('r#', ROBOTS)} - robot {each('p#', ROOMS)} - place"
    return PLACES, f"(define (problem q) (:domain places) (:objects {objects}) (:init {initial}) (:goal (seen r0 p0)))"


def visits():
    """512 durative steps: each robot visits one place after another, all robots side by side."""
    return "".join(f"{6 * (k // ROBOTS)}: (visit r{k % ROBOTS} p{k // ROBOTS}) [5]\n" for k in range(512))


def marks():
    """512 instantaneous steps at one tick that do not interfere."""
    return "".join(f"0: (mark r{k % ROBOTS} p{k // ROBOTS})\n" for k in range(512))


def yard(trucks, count):
    """Trucks, places and four gauges, one of which is free."""
    objects = f"{each('t#', trucks)} - truck {each('p#', count)} - place {each('g#', 4)} - gauge"
    return YARD, f"(define (problem q) (:domain yard) (:objects {objects}) (:init {each('(idle t#)', trucks)} (free g3)) (:goal (at t0 p0)))"


def roads(count):
    """A chain of places, and an action with the cube of them as bindings, of which one for each road is reachable."""
    joined = " ".join(f"(road p{k} p{k + 1})" for k in range(count - 1))
    return ROADS, f"(define (problem q) (:domain roads) (:objects {each('p#', count)}) (:init (at p0) {joined}) (:goal (at p{count - 1})))"


def lamps(count):
    """Lamps that are all to be lit, and one not: no plan is valid, but the goal is met in the delete relaxation."""
    goal = f"(and {each('(on l#)', count)} (not (on l0)))"
    return LAMPS, f"(define (problem q) (:domain lamps) (:objects {each('l#', count)}) (:init {each('(off l#)', count)}) (:goal {goal}))"


def crowd(asked, done, count, initial=""):
    """An action without parameters whose condition and effect are about so many objects."""
    domain = f"""(define (domain crowd) (:predicates (a ?x) (b ?x))
 (:action act :parameters () :precondition (forall (?x) {asked}) :effect (forall (?x) {done})))"""
    facts = each(initial.replace("?x", "o#"), count) if initial else ""
    return domain, f"(define (problem q) (:domain crowd) (:objects {each('o#', count)}) (:init {facts}) (:goal ()))"


def example(world, problem, plan=None):
    """The texts of an example."""
    folder = ROOT / "examples" / world
    return tuple((folder / name).read_text() for name in ("domain.pddl", problem, plan) if name)


def checks(program):
    for world, scale in SCALES.items():
        for command in ("check", "net"):
            timed(program, f"{command} of examples/{world}", command, example(world, "problem.pddl", "plan-valid.plan"), ("--scale", scale))
    for command in ("check", "net"):
        timed(program, f"{command} of 512 steps side by side, 8,000 actions", command, (*places(), visits()))
    timed(program, "check of 512 steps at one tick, on the same task", "check", (*places(), marks()))
    timed(program, "check of no step, on the same task", "check", (*places(), ""))
    for trucks, count in ((10, 100), (59, 1000)):
        timed(program, f"check of one step, {trucks * count:,} actions with two `exists`", "check", (*yard(trucks, count), "0: (drive t0 p0) [5]\n"))
    in_row = "(define (domain line) (:functions (x)) (:action set :effect (assign (x) 1)))"
    plan = "".join(f"{k}: (set)\n" for k in range(512))
    timed(program, "net of 512 steps in a row that interfere", "net", (in_row, "(define (problem q) (:domain line) (:init (= (x) 0)) (:goal ()))", plan))
    timed(program, "net of 512 steps with nearly 65,535 bounds", "net", (SHIFTS, SHIFTED, "0: (look) [5]\n" * 250 + "1: (shut) [5]\n" * 256))
    timed(program, "run of 512 steps, no command", "run", (*places(), visits()))


def searches(program):
    for command in filter(lambda it: has_command(program, it), ("plan", "solve")):
        for world, problem in (("observatory", "one-picture"), ("rover", "one-picture"), ("test-bench", "one-sensor")):
            timed(program, f"{command} of examples/{world}/{problem}", command, example(world, f"{problem}.pddl"), ("--scale", SCALES[world]))
        timed(program, f"{command} of one visit, 8,000 actions", command, places())
        timed(program, f"{command} of 80 places: 512,000 bindings, 79 reachable", command, roads(80))
        timed(program, f"{command} of 40 lamps, no plan, a budget of 1,000,000", command, lamps(40), ("--budget", 1_000_000))
        timed(program, f"{command} of 2,000 lamps, no plan, a budget of 10,000", command, lamps(2_000), ("--budget", 10_000))
    if has_command(program, "solve"):
        for world, scale in SCALES.items():
            timed(program, f"solve of examples/{world}", "solve", example(world, "problem.pddl"), ("--scale", scale))
        for domain in sorted((ROOT / "tests" / "series").glob("*/domain.pddl")):
            problem = sorted(domain.parent.glob("q*.pddl"))[-1]
            timed(program, f"solve of tests/series/{domain.parent.name}/{problem.stem}", "solve", (domain.read_text(), problem.read_text()))


# ---- journals and splits


def kept(program, name, lines, texts=()):
    """Commands without a journal, with one, and its audit: of `bare`, or with three texts of `run`."""
    with tempfile.TemporaryDirectory() as room:
        source, answers, log, said = (pathlib.Path(room, part) for part in ("commands", "answers", "night.log", "said"))
        files = [pathlib.Path(room, str(at)) for at in range(len(texts))]
        for file, text in zip(files, texts):
            file.write_text(text)
        source.write_text("".join(f"{line}\n" for line in lines))
        call = [program, "run", *files] if files else [program, "bare"]
        for what, words, sink in (
            ("without a journal", call, answers),
            ("with a journal", [*call, "--journal", log], answers),
            ("its audit", [program, "audit", log, *files], said),
        ):
            took, busy, status, memory = best_of(words, source, sink)
            size = log.stat().st_size if log.exists() else 0
            print(f"{f'{name}, {what}':62} {took:8.3f} s, busy {busy:8.3f} s  {memory:4} MB  status {status}  journal {size} bytes", flush=True)


def run_of_visits():
    """The commands of the run of 512 visits: each event at the plan's tick, and all windows before each round."""
    lines = []
    for first in range(0, 512, ROBOTS):
        lines += [f"window {event}" for event in range(EVENTS)]
        for part, tick in ((0, 0), (1, 5)):
            lines.append(f"advance {6 * (first // ROBOTS) + tick}")
            lines += [f"dispatch {2 * step + part}" for step in range(first, first + ROBOTS)]
    return lines


def journals(program):
    kept(program, "20,000 mixed lines", [HEAD, *mixed(20_000)])
    kept(program, "1,000 reports of 1,024 events", [HEAD, *["report"] * 1_000])
    kept(program, "1,000 refusals with 1,024 edges", [HEAD, *chain(), *(f"add o {EVENTS - 1} {EVENTS - 2 - k % 512}" for k in range(1_000))])
    kept(program, "a run of 512 visits with 16,384 windows", run_of_visits(), (*places(), visits()))


def splits(program):
    agents = {"two agents": lambda k: k // 2 % 2, "512 agents": lambda k: k // 2, "1,024 agents": lambda k: 1023 - k}
    plans = {
        "512 visits": (1024, (*places(), visits())),
        "1,012 events and 64,000 bounds": (1012, (SHIFTS, SHIFTED, "0: (look) [5]\n" * 250 + "1: (shut) [5]\n" * 256)),
    }
    for name, (events, texts) in plans.items():
        for count, owner in agents.items():
            timed(program, f"split of {name} among {count}", "split", (*texts, " ".join(str(owner(k)) for k in range(events))))


# ---- texts that are slow by accident


def accidents(program):
    """Texts that users write by accident. Each is to end within PATIENCE seconds."""
    head, none = "(define (domain d) (:types t0) (:predicates (p ?x) (g))", "(define (problem q) (:domain d) (:init) (:goal ()))"
    listed = f"(either {each('t#', 45_000)})"
    types = f"(define (domain d) (:types {each('t#', 45_000)}) (:predicates (p ?x - {listed})) (:action a :parameters (?x - {listed}) :precondition (p ?x) :effect ()))"
    wide = f"{head} (:action a :parameters ({each('?x#', 20_000)}) :precondition (and {each('(p ?x#)', 20_000)}) :effect (g)))"
    long = f"(define (domain d) (:predicates {each('(q#)', 30_000)} (g)) (:action a :precondition (and {each('(q#)', 30_000)} {each('(q#)', 30_000)}) :effect (g)))"
    climb = " ".join(f"t{k} - t{k + 1}" for k in range(2_000))
    climbed = f"(define (domain d) (:types {climb} t2000 - object) (:constants c - t0) (:predicates (p ?x - t2000)) (:action a :precondition (and {'(p c) ' * 2_000}) :effect ()))"
    facts = f"(define (problem q) (:domain d) (:objects {each('o#', 59_000)}) (:init {each('(p o#)', 59_000)}) (:goal ()))"
    cases = (
        ("a type list of 45,000", (types, none, "")),
        ("a small `exists` under 57,600 actions", (*yard(48, 1_200), "0: (drive t0 p0) [5]\n")),
        ("20,000 parameters", (wide, none, "")),
        ("a tick of 400 steps over 10,000 atoms", (*crowd("(a ?x)", "(b ?x)", 10_000, "(a ?x)"), "0: (act)\n" * 400)),
        ("59,000 objects, each in a fact", (head + ")", facts, "")),
        ("3,000 lines after the 512th step", (*places(), visits() + "0: (mark r0 p0)\n" * 3_000)),
        ("a condition of 60,000 conjuncts", (long, none, "0: (a)\n")),
        ("a chain of 2,000 types", (climbed, none, "")),
    )
    for name, texts in cases:
        took = timed(program, name, "check", texts)
        if took > PATIENCE:
            print(f"{name}: more than {PATIENCE} s", flush=True)


def main():
    if {"-h", "--help"} & {*sys.argv[1:]}:
        print(__doc__.strip())
        return
    words = [word for word in sys.argv[1:] if not word.startswith("--")]
    program = pathlib.Path(words[0]).resolve() if words else built()
    groups = {
        "--check": lambda: checks(program),
        "--search": lambda: searches(program),
        "--network": lambda: network(program, "--full" in sys.argv),
        "--journals": lambda: journals(program),
        "--split": lambda: splits(program),
        "--accidents": lambda: accidents(program),
    }
    for run in [groups[name] for name in sys.argv if name in groups] or groups.values():
        run()


if __name__ == "__main__":
    main()
