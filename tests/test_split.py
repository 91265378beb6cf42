"""Networks of plans in files, split among agents: intervals worked by hand, and what they are good for."""
import random
import re

import program
from program import FOLDER, NEVER, TOP, Case, Once, call, told, told_by, whole, world

SPLIT = "split domain problem plan owners"

SPLIT_UP_TO_100 = "split domain problem plan owners --horizon 100"

HELD = "(define (problem p) (:domain toggle) (:init (p)) (:goal (p)))"

MATCH = (world("MATCH"), world("MATCHES"))

TOGGLE = (world("TOGGLE"), world("TOGGLED"))

TOGGLE_HELD = (world("TOGGLE"), HELD)

TANK = (world("TANK"), world("EMPTY_TANK"))

CHARGE = (world("CHARGE"), world("UNCHARGED"))

GATE = (
    "(define (domain gate) (:predicates (open)) (:action look :precondition (open) :effect ()) (:action take :effect (not (open))))",
    "(define (problem p) (:domain gate) (:init (open)) (:goal ()))",
)

LINE = (world("LINE"), world("UNSET"))

LIT = "0: (light-match m1) [8]\n0: (mend-fuse f1) [5]\n"

WATCH = "0: (watch) [5]\n2: (give)\n3: (drop)\n"

FILLS = "1: (fill-a)\n1: (fill-b)\n"

HOLD = "0: (hold) [4]\n" + FILLS

SETS = "0: (set)\n1: (set)\n2: (set)\n"

REST = "0: (rest) [4]\n"

MATCH_LINES = "interval 0 0 0\ninterval 1 5 100\ninterval 2 0 100\ninterval 3 0 5\n"

REST_LINES = "interval 0 0 0\ninterval 1 2 6\n"

# a domain and a problem, a plan of theirs, the agents of its events, the words of the call, and the lines
INTERVALS = (
    (MATCH, LIT, "0 0 1 1", SPLIT_UP_TO_100, MATCH_LINES),
    (MATCH, LIT, "1 1 0 0", SPLIT_UP_TO_100, MATCH_LINES),
    (MATCH, LIT, "0 0 0 0", SPLIT_UP_TO_100, ""),
    (MATCH, LIT, "7 7 7 7", SPLIT_UP_TO_100, ""),
    # without the option moments run up to 1,000,000; and no further than the plan needs
    (MATCH, LIT, "0 0 1 1", SPLIT, "interval 0 0 0\ninterval 1 5 1000000\ninterval 2 0 1000000\ninterval 3 0 5\n"),
    (
        MATCH,
        LIT,
        "0 0 1 1",
        "split --horizon 8 domain problem plan owners",
        "interval 0 0 0\ninterval 1 5 8\ninterval 2 0 8\ninterval 3 0 5\n",
    ),
    # ticks, where a unit is ten of them
    (
        MATCH,
        LIT,
        "0 0 1 1",
        "split domain --scale 10 problem plan --horizon 100 owners",
        "interval 0 0 0\ninterval 1 50 100\ninterval 2 0 100\ninterval 3 0 50\n",
    ),
    # the starts are one agent's, the ends another's: every bound joins them
    (MATCH, LIT, "0 1 0 1", SPLIT_UP_TO_100, "interval 0 0 0\ninterval 1 8 8\ninterval 2 0 0\ninterval 3 5 5\n"),
    (TOGGLE, WATCH, "0 0 1 1", SPLIT_UP_TO_100, "interval 0 0 0\ninterval 1 0 100\ninterval 2 0 0\ninterval 3 0 0\n"),
    (TOGGLE, WATCH, "0 1 1 1", SPLIT_UP_TO_100, "interval 0 0 0\ninterval 1 5 5\ninterval 2 0 100\ninterval 3 0 100\n"),
    (TANK, FILLS, "0 1", SPLIT_UP_TO_100, ""),
    (TANK, HOLD, "0 0 1 2", SPLIT_UP_TO_100, "interval 0 0 0\ninterval 1 0 100\ninterval 2 0 0\ninterval 3 0 0\n"),
    (CHARGE, REST, "0 1", SPLIT_UP_TO_100, REST_LINES),
    # the numbers of agents are names and no more: with gaps, and the greatest
    (CHARGE, REST, "0 2", SPLIT_UP_TO_100, REST_LINES),
    (CHARGE, REST, "1023 0", SPLIT_UP_TO_100, REST_LINES),
    # as long as in the plan, since the effect tells how long
    (CHARGE, "0: (charge) [4]\n", "0 1", SPLIT_UP_TO_100, "interval 0 0 0\ninterval 1 4 4\n"),
    # each step sets what the others set, so a bound joins each with the next; what is widened first leaves less to the others
    (LINE, SETS, "0 1 2", SPLIT_UP_TO_100, "interval 0 0 0\ninterval 1 1 1\ninterval 2 2 100\n"),
    (LINE, SETS, "0 0 1", SPLIT_UP_TO_100, "interval 1 0 1\ninterval 2 2 100\n"),
    (LINE, SETS, "1 0 0", SPLIT_UP_TO_100, "interval 0 0 0\ninterval 1 1 100\n"),
    # a plan without steps has no events, and no agents
    (TOGGLE_HELD, "", "", SPLIT_UP_TO_100, ""),
    (TOGGLE_HELD, "", " \t\r\n\n", SPLIT_UP_TO_100, ""),
)

# spellings of the agents of four events
SPELLINGS = (
    "0 0 1 1",
    "0 0 1 1\n",
    "\n\n 0\t0\r\n\t1 \n1  ",
    "0\r\n0\r\n1\r\n1\r\n",
    "\f0\v0\v\f1\f1\v",
    "0000 00 0001 001",
    "0 0 1 1" + (1_048_576 - 7) * " ",
)

# agents of four events that are refused, and the number that is told
MISOWNED = (
    ("0 0 1", 3),
    ("", 0),
    ("0 0 1 1 1", 4),
    ("0 0 1024 1", 2),
    ("0 0 9999 1", 2),
    ("0 0 x 1", 2),
    ("0 0 -1 1", 2),
    ("0 0 +1 1", 2),
    ("0 0 1.0 1", 2),
    ("0 0,1 1 1", 1),
    ("00000 0 1 1", 0),
    ("0 0 1 00001", 3),
    ("0 0 1 1 ; who", 4),
    ("0 0 1 \u00e9", 3),
    # a blank outside of ASCII is none
    ("0\u00a00 1 1", 0),
    # the first event at fault, be it that its agent's number is too great or that it has none
    ("1024 0", 0),
    ("0 0 1024", 2),
    ("0 0 1 1 1024", 4),
    ("0 1024 1 1 1", 1),
    # words are read before they are compared with the events
    ("0 0 1024 x", 3),
    ("0 0 1 1 1 1 x", 6),
)

# files of agents that are no text, and what is told
NO_TEXTS = (
    (b"0 0 1 \xff", "fault file 2 utf8 owners\n", 2),
    (b"\xff" + b"0 0 1 1", "fault file 2 utf8 owners\n", 2),
    (1_048_577 * b" ", "fault file 3 too-long owners\n", 2),
    (1_048_577 * b"\xff", "fault file 3 too-long owners\n", 2),
    (FOLDER, "fault file 1 read owners\n", 3),
)

# plans whose events have no network; the file of the agents is not opened
OTHERS = (
    (CHARGE, "0: (charge) [7]\n", SPLIT, "invalid 0 duration 0\n", 1),
    (TOGGLE, "3: (need)\n3: (drop)\n", SPLIT, "invalid 3 interferes 0 1\n", 1),
    (TOGGLE, "", SPLIT, "invalid 0 goal\n", 1),
    (CHARGE, "0: (dash) [7]\n", SPLIT, "fault plan 3 no-action 1\n", 2),
    (CHARGE, "98: (rest) [4]\n", SPLIT_UP_TO_100, "fault plan 7 horizon 1\n", 2),
    ((CHARGE[0], ""), REST, SPLIT, "fault problem 2 text 7 empty\n", 2),
    ((CHARGE[0] + ")", CHARGE[1]), REST, SPLIT, f"fault domain 2 text 5 extra {len(CHARGE[0])}\n", 2),
    (GATE, 256 * "0: (look)\n" + 256 * "1: (take)\n", SPLIT, "fault net 2 too-many\n", 2),
)

# examples that are split among agents who are drawn: a domain and a problem, a plan, and the options
SMALL = (
    (MATCH, LIT, "--horizon 100"),
    (TOGGLE, WATCH, "--horizon 7"),
    (TANK, HOLD, "--horizon 100"),
    (CHARGE, "0: (rest) [4]\n1: (charge) [3]\n6: (rest) [4]\n", "--horizon 20"),
    (LINE, SETS + "9: (set)\n", "--horizon 12"),
)

GREAT = (("observatory", "--horizon 720"), ("rover", "--horizon 1000"), ("test-bench", "--scale 1000 --horizon 200000"))


def is_refusing():
    """Whether requests for memory are refused, each in turn: great networks make too many for that."""
    return bool(program.around)


def files_of(example, plan, owners):
    return {"domain": example[0], "problem": example[1], "plan": plan, "owners": owners}


def great(name):
    """The files of an example of examples/, but for its agents."""
    folder = TOP / "examples" / name
    kinds = (("domain", "domain.pddl"), ("problem", "problem.pddl"), ("plan", "plan-valid.plan"))
    return {kind: (folder / file).read_bytes() for kind, file in kinds}


def given_agents(name):
    """The agents of an example of examples/ that stand beside its plan, if any do."""
    file = TOP / "examples" / name / "plan-valid.owners"
    return [[int(word) for word in file.read_text().split()]] if file.is_file() else []


def network(files, options):
    """The texts of the events of a plan, and its bounds: from, to and weight."""
    lines = call(f"net domain problem plan {options}", files).answers.decode().splitlines()
    texts = [line.split(" ", 2)[2] for line in lines if line.startswith("event ")]
    bounds = [tuple(int(word) for word in line.split()[2:]) for line in lines if line.startswith("bound ")]
    return texts, bounds


def agents_of_events(drawn, texts):
    """Agents that are drawn for each event: two or three, and two whose numbers have a gap."""
    return [[drawn.randrange(2) for _ in texts], [drawn.randrange(3) for _ in texts], [drawn.choice((0, 5)) for _ in texts]]


def agents_of_steps(drawn, texts):
    """Agents that are drawn for each step, so that both of its events are one agent's."""
    of_steps = [drawn.randrange(2) for _ in texts]
    return [of_steps[int(text.split()[1])] for text in texts]


def examples(drawn):
    """The files of each example, but for its agents, the options of its calls, its events and bounds, and agents of the events."""
    for example, plan, options in SMALL:
        files = {"domain": example[0], "problem": example[1], "plan": plan}
        texts, bounds = network(files, options)
        for owners in [*agents_of_events(drawn, texts), agents_of_steps(drawn, texts)]:
            yield repr(plan), files, options, texts, bounds, owners
    for name, options in () if is_refusing() else GREAT:
        files = great(name)
        texts, bounds = network(files, options)
        for owners in [agents_of_steps(drawn, texts), *given_agents(name)]:
            yield name, files, options, texts, bounds, owners


def between(bounds, owners):
    """The bounds that join events of two agents."""
    return [(f, t, w) for f, t, w in bounds if owners[f] != owners[t]]


def least(count, bounds):
    """The schedule in which each event is as early as it can be."""
    moments, moved = count * [0], True
    while moved:
        moved = False
        for f, t, w in bounds:
            if moments[f] < moments[t] - w:
                moments[f], moved = moments[t] - w, True
    return moments


def plainly(count, bounds, owners, horizon):
    """The intervals by their definition, from the least schedule on, one event after another."""
    crosses, moments = between(bounds, owners), least(count, bounds)
    low, high = list(moments), list(moments)
    interface = sorted({e for f, t, _ in crosses for e in (f, t)})
    for e in interface:
        low[e] = max([0, *(high[t] - w for f, t, w in crosses if f == e)])
        high[e] = min([horizon, *(low[f] + w for f, t, w in crosses if t == e)])
    return {e: (low[e], high[e]) for e in interface}


def breaks(crosses, intervals):
    """Whether some choice inside the intervals breaks a bound between agents: `to` as late as it may be, and `from` as early."""
    return any(intervals[t][1] - intervals[f][0] > w for f, t, w in crosses)


def can_widen(crosses, intervals, horizon):
    """The events whose interval could be wider by a tick at one end, and all bounds between agents were still met."""
    for e, (low, high) in intervals.items():
        if low > 0 and not breaks(crosses, {**intervals, e: (low - 1, high)}):
            yield e
        if high < horizon and not breaks(crosses, {**intervals, e: (low, high + 1)}):
            yield e


def told_intervals(text):
    """The intervals by event that lines tell."""
    rows = [re.fullmatch(r"interval (\d+) (\d+) (\d+)", line).groups() for line in text.splitlines()]
    return {int(e): (int(low), int(high)) for e, low, high in rows}


def part(bounds, owners, intervals, agent):
    """The events of an agent, and the commands that bring its part about in a network of its own: its events numbered from 0, the
    bounds among them, and its intervals."""
    events = [e for e, owner in enumerate(owners) if owner == agent]
    place = {e: number for number, e in enumerate(events)}
    lines = [f"add {place[f]} {place[t]} {w}\n" for f, t, w in bounds if f in place and t in place]
    for e in events:
        if e in intervals:
            low, high = intervals[e]
            lines += [f"add {place[e]} o {-low}\n", f"add o {place[e]} {high}\n"]
    return events, lines


def commands_at(moments):
    """The commands of a run in which the events happen at these moments."""
    now, lines = 0, []
    for moment, event in sorted((moment, event) for event, moment in enumerate(moments)):
        if now < moment:
            lines.append(f"advance {moment}\n")
            now = moment
        lines.append(f"dispatch {event}\n")
    return lines


class Split(Case):
    def test_intervals_of_small_plans(self):
        for example, plan, owners, words, text in INTERVALS:
            with self.subTest(f"{plan!r} {owners!r} {words}"):
                self.comes_to(told(text), words, files_of(example, plan, owners))

    def test_spellings_of_agents(self):
        for owners in SPELLINGS:
            with self.subTest(repr(owners[:40])):
                self.comes_to(told(MATCH_LINES), SPLIT_UP_TO_100, files_of(MATCH, LIT, owners))

    def test_agents_that_are_refused(self):
        for owners, number in MISOWNED:
            with self.subTest(repr(owners)):
                wanted = told_by(f"fault split 2 owner {number}\n", 2)
                self.comes_to(wanted, SPLIT_UP_TO_100, files_of(MATCH, LIT, owners))
        with self.subTest("an agent, and no event"):
            self.comes_to(told_by("fault split 2 owner 0\n", 2), SPLIT_UP_TO_100, files_of(TOGGLE_HELD, "", "0"))

    def test_files_of_agents_that_are_no_texts(self):
        for owners, line, status in NO_TEXTS:
            with self.subTest(line):
                self.comes_to(told("", line, status), SPLIT_UP_TO_100, files_of(MATCH, LIT, owners))

    def test_plans_that_are_not_split(self):
        for example, plan, words, text, status in OTHERS:
            with self.subTest(f"{plan[:40]!r} {words}"):
                self.comes_to(told_by(text, status), words, files_of(example, plan, NEVER))

    def test_a_plan_that_is_not_valid_needs_no_agents(self):
        files = {"domain": CHARGE[0], "problem": CHARGE[1], "plan": "0: (charge) [7]\n"}
        self.comes_to(told("invalid 0 duration 0\n", "", 1), SPLIT, files)

    def lacks(self, name, files):
        """A call that lacks that file opens those before it once at most, none behind it, and tells of it."""
        with self.subTest(name):
            self.comes_to(told("", f"fault file 1 read {name}\n", 3), SPLIT, files)

    def test_files_that_are_not_there(self):
        domain, problem, plan = Once(CHARGE[0]), Once(CHARGE[1]), Once(REST)
        self.lacks("domain", {"problem": NEVER, "plan": NEVER, "owners": NEVER})
        self.lacks("problem", {"domain": domain, "plan": NEVER, "owners": NEVER})
        self.lacks("plan", {"domain": domain, "problem": problem, "owners": NEVER})
        self.lacks("owners", {"domain": domain, "problem": problem, "plan": plan})

    # behind each number of bytes, up to the last one of the lines
    def test_writers_that_fail(self):
        for room in range(len(MATCH_LINES)):
            with self.subTest(f"{room} bytes"):
                wanted = told(MATCH_LINES[:room], "fault script 2 write\n", 3)
                self.comes_to(wanted, SPLIT_UP_TO_100, files_of(MATCH, LIT, "0 0 1 1"), room=room)
        with self.subTest("the first fault of a plan"):
            wanted = told("invalid 0 dur", "fault script 2 write\n", 3)
            self.comes_to(wanted, SPLIT, files_of(CHARGE, "0: (charge) [7]\n", NEVER), room=13)
        with self.subTest("no lines"):
            self.comes_to(told(), SPLIT, files_of(MATCH, LIT, "0 0 0 0"), room=0)

    # each of 512 steps has its start and its end, each event an agent of its own
    def test_1024_agents(self):
        count = 8 if is_refusing() else 512
        owners = " ".join(str(agent) for agent in range(2 * count))
        text = "".join(f"interval {2 * step} 0 0\ninterval {2 * step + 1} 2 6\n" for step in range(count))
        self.comes_to(told(text), SPLIT, files_of(CHARGE, count * REST, owners))

    # each of 512 steps stays behind the one before, and two agents take turns
    def test_agents_that_take_turns(self):
        count = 8 if is_refusing() else 512
        plan = "".join(f"{tick}: (set)\n" for tick in range(count))
        text = "".join(f"interval {e} {e} {e}\n" for e in range(count - 1)) + f"interval {count - 1} {count - 1} 1000000\n"
        self.comes_to(told(text), SPLIT, files_of(LINE, plan, count // 2 * "0 1\n"))

    # 255 steps at 0 ask for what each of 256 at 1 takes away
    def test_65280_bounds(self):
        looks, takes = (4, 4) if is_refusing() else (255, 256)
        plan = looks * "0: (look)\n" + takes * "1: (take)\n"
        text = "".join(f"interval {e} 0 0\n" for e in range(looks))
        text += "".join(f"interval {looks + e} 1 1000000\n" for e in range(takes))
        self.comes_to(told(text), SPLIT, files_of(GATE, plan, looks * "0 " + takes * "1 "))

    # 255 of the 65,535 bounds join the last event with another agent's, and each of these others gets two for its interval
    def test_a_part_of_65790_bounds(self):
        if is_refusing():
            self.skipTest("too many requests for memory")
        plan = 255 * "0: (look)\n" + 257 * "1: (take)\n"
        files = files_of(GATE, plan, 511 * "0 " + "1")
        self.comes_to(told_by("fault split 5 too-many\n", 2), f"{SPLIT} --part 0", files)
        wanted = told("network 1 1000000\nadd 0 o -1\nadd o 0 1000000\n")
        self.comes_to(wanted, f"{SPLIT} --part 1", files)

    def test_parts_of_agents(self):
        """The lines of a part are its events' count, the bounds of `net` that join no other event, and the intervals."""
        for example, plan, owners, words, text in INTERVALS:
            files = files_of(example, plan, owners)
            shown = call(words.replace("split", "net", 1).replace(" owners", ""), files).answers.decode()
            bounds = re.findall(r"(?m)^bound \d+ (\w+) (\w+) (\S+)$", shown)
            horizon = re.search(r"--horizon (\d+)", words)
            numbers = [int(word) for word in owners.split()]
            for agent in range(max(numbers, default=-1) + 1):
                own = [event for event, number in enumerate(numbers) if number == agent]
                place = {"o": "o", **{str(event): str(k) for k, event in enumerate(own)}}
                lines = [f"network {len(own)} {horizon[1] if horizon else 1_000_000}"]
                lines += [f"add {place[f]} {place[t]} {w}" for f, t, w in bounds if f in place and t in place]
                for event, low, high in re.findall(r"(?m)^interval (\d+) (\d+) (\d+)$", text):
                    if event in place:
                        least = f"-{low}" if low != "0" else "0"
                        lines += [f"add {place[event]} o {least}", f"add o {place[event]} {high}"]
                wanted = "".join(f"{line}\n" for line in lines)
                with self.subTest(f"{plan!r} {owners!r} {words} --part {agent}"):
                    self.comes_to(told(wanted), f"{words} --part {agent}", files)
                    answers = "".join(f"bound {k}\n" for k in range(len(lines) - 1))
                    self.comes_to(told(answers), "bare", {}, whole(wanted))

    def test_agents_that_have_no_part(self):
        for agent in (2, 1023):
            wanted = told_by(f"fault split 4 agent {agent}\n", 2)
            self.comes_to(wanted, f"{SPLIT_UP_TO_100} --part {agent}", files_of(MATCH, LIT, "0 0 1 1"))

    def split(self, files, options, owners):
        """The intervals that a call tells, which has to succeed."""
        words = " ".join(str(owner) for owner in owners)
        found = call(f"{SPLIT} {options}", {**files, "owners": words})
        self.assertEqual((found.faults, found.status), (b"", 0))
        return told_intervals(found.answers.decode())

    def decouple(self, bounds, owners, intervals, horizon):
        """Each event of a bound between agents, and no other, has an interval from 0 to the horizon; whatever is chosen inside
        them meets these bounds, and none can be widened by a tick."""
        crosses = between(bounds, owners)
        self.assertEqual(list(intervals), sorted({e for f, t, _ in crosses for e in (f, t)}))
        self.assertTrue(all(0 <= low <= high <= horizon for low, high in intervals.values()))
        self.assertFalse(breaks(crosses, intervals))
        self.assertEqual(list(can_widen(crosses, intervals, horizon)), [])

    def test_intervals_are_as_wide_as_can_be(self):
        for name, files, options, texts, bounds, owners in examples(random.Random("intervals")):
            with self.subTest(f"{name} {owners}"):
                horizon = int(options.split()[-1])
                intervals = self.split(files, options, owners)
                self.decouple(bounds, owners, intervals, horizon)
                self.assertEqual(intervals, plainly(len(texts), bounds, owners, horizon))

    def window(self, head, lines, event):
        """What a network tells of an event."""
        found = call("bare", given=whole("".join([head, *lines, f"window {event}\n"])))
        self.assertEqual((found.faults, found.status), (b"", 0))
        return [int(word) for word in found.answers.split()[-2:]]

    def carry_out(self, drawn, lines, count, horizon):
        """Carries a part out by itself. One event after another gets a moment inside its window; then all happen, each at its own.
        Answers their moments."""
        head, chosen, moments = f"network {count} {horizon}\n", [], count * [0]
        for event in drawn.sample(range(count), count):
            low, high = self.window(head, lines + chosen, event)
            moments[event] = drawn.choice((low, high, drawn.randint(low, high), drawn.randint(low, min(high, low + 9))))
            chosen += [f"add o {event} {moments[event]}\n", f"add {event} o {-moments[event]}\n"]
        commands = commands_at(moments)
        answers = [f"bound {number}\n" for number in range(len(lines))] + len(commands) * ["ok\n"]
        report = "".join([f"report {max(moments, default=0)} bare", *(f" {moment}!" for moment in moments), "\n"])
        given = whole("".join([head, *lines, *commands, "report\n"]))
        self.comes_to(told("".join([*answers, report])), "bare", given=given)
        return moments

    def join(self, drawn, bounds, owners, intervals, horizon):
        """Lets each agent carry out its part alone. Answers the moments of all events."""
        moments = len(owners) * [0]
        for agent in range(max(owners) + 1):
            events, lines = part(bounds, owners, intervals, agent)
            for event, moment in zip(events, self.carry_out(drawn, lines, len(events), horizon)):
                moments[event] = moment
        return moments

    def makes_a_plan(self, files, options, moments):
        """A run of the whole at these moments is answered without a refusal, and the plan that comes of it is valid."""
        commands = commands_at(moments)
        found = call(f"run domain problem plan {options}", files, whole("".join(commands)))
        answers, _, plan = found.answers.partition(b"plan\n")
        self.assertEqual((answers, found.faults, found.status), (len(commands) * b"ok\n", b"", 0))
        self.comes_to(told("valid\n"), f"check domain problem plan {options}", {**files, "plan": plan})

    def test_parts_that_are_carried_out_apart_make_a_valid_plan(self):
        drawn = random.Random("parts")
        for name, files, options, _, bounds, owners in examples(drawn):
            with self.subTest(f"{name} {owners}"):
                intervals = self.split(files, options, owners)
                moments = self.join(drawn, bounds, owners, intervals, int(options.split()[-1]))
                self.assertEqual([b for b in bounds if moments[b[1]] - moments[b[0]] > b[2]], [])
                self.makes_a_plan(files, options, moments)
