"""Pictures of plans in files, and of runs: what their titles say, compared with what other commands tell."""
import random
import re
import xml.etree.ElementTree as xml

import program
from program import FOLDER, LOG, TOP, Case, Once, call, told, whole, world

DRAW = "draw domain problem plan"

MATCH = (world("MATCH"), world("MATCHES"))

TOGGLE = (world("TOGGLE"), world("TOGGLED"))

CHARGE = (world("CHARGE"), world("UNCHARGED"))

HELD = "(define (problem p) (:domain toggle) (:init (p)) (:goal (p)))"

LIT = "0: (light-match m1) [8]\n0: (mend-fuse f1) [5]\n"

# a domain and a problem, a plan, its scale, and horizons that are given
SMALL = (
    (MATCH, LIT, 1, ("", "--horizon 8", "--horizon 100", "--horizon 1000000000")),
    (MATCH, "0.5: (light-match m1) [8]\n0.5: (mend-fuse f1) [5]\n", 10, ("", "--horizon 100")),
    (TOGGLE, "0: (watch) [5]\n2: (give)\n3: (drop)\n", 1, ("", "--horizon 7")),
    ((TOGGLE[0], HELD), "", 1, ("", "--horizon 0", "--horizon 9")),
    (CHARGE, "0: (rest) [4]\n1: (charge) [3]\n6: (rest) [4]\n", 1, ("", "--horizon 20")),
    # more steps than have all arrows, and more than have far ones
    (CHARGE, "".join(f"{7 * tick}: (rest) [4]\n" for tick in range(70)), 1, ("", "--horizon 600")),
)

GREAT = (("observatory", 1, ("", "--horizon 260")), ("rover", 1, ("", "--horizon 100")), ("test-bench", 1000, ("", "--horizon 300000")))

# of each example: its problem, its plan, the scale, a horizon, and whether its steps have objects
RUNS = (
    ("observatory", "problem.pddl", "plan-valid.plan", 1, 260),
    ("rover", "one-picture.pddl", "one-picture.plan", 1, 60),
    ("test-bench", "one-sensor.pddl", "one-sensor.plan", 1000, 120000),
)

# pictures of docs/pictures, the folders of their examples, the words of the calls that draw them, and how many lines of the journal
# of the valid plan are drawn
PAGES = (
    ("observatory.svg", "observatory", DRAW, 0),
    ("rover.svg", "rover", DRAW, 0),
    ("test-bench.svg", "test-bench", f"{DRAW} --scale 1000", 0),
    ("rover-run.svg", "rover", f"{DRAW} --journal log", 476),
)

SVG = "{http://www.w3.org/2000/svg}"


def files_of(example, plan, log=None):
    files = {"domain": example[0], "problem": example[1], "plan": plan}
    return files if log is None else {**files, "log": log}


def example(folder, problem, plan):
    """The files of an example of examples/."""
    return [(TOP / "examples" / folder / file).read_text() for file in ("domain.pddl", problem, plan)]


def is_refusing():
    """Whether requests for memory are refused, each in turn: great plans make too many for that."""
    return bool(program.around)


def plans():
    """The files of valid plans, with their scale and horizons."""
    for pair, plan, scale, horizons in SMALL:
        yield files_of(pair, plan), scale, horizons
    for folder, scale, horizons in () if is_refusing() else GREAT:
        domain, problem, plan = example(folder, "problem.pddl", "plan-valid.plan")
        yield files_of((domain, problem), plan), scale, horizons


def network(files, options):
    """The events of a plan, by their part, their step and its words, and its bounds by their numbers."""
    lines = [line.split(" ", 4) for line in call(f"net domain problem plan {options}", files).answers.decode().splitlines()]
    events = [(part, int(step), words) for word, _, part, step, words in lines if word == "event"]
    bounds = {int(line[1]): (int(line[2]), int(line[3]), int(line[4])) for line in lines if line[0] == "bound"}
    return events, bounds


def ticks(text, scale):
    """The ticks that a time spells, which has as many decimals as the scale has zeros."""
    units, _, part = text.partition(".")
    if len(part) != len(str(scale)) - 1:
        raise AssertionError(f"{text} has {len(part)} decimals")
    return int(units) * scale + int(part or 0)


def times(plan, scale):
    """When each step of a plan starts and ends, in ticks."""
    rows = re.findall(r"(?m)^\s*([\d.]+)\s*:\s*\([^)]*\)\s*(?:\[\s*([\d.]+)\s*\])?", plan)
    return [(round(float(start) * scale), round(float(start) * scale) + round(float(last or 0) * scale)) for start, last in rows]


class Picture:
    """What the titles of a picture say."""

    def __init__(self, text, scale):
        self.top, self.scale = xml.fromstring(text), scale
        groups = [group for group in self.top.iter(f"{SVG}g") if group.find(f"{SVG}title") is not None]
        titles = [(group.get("class"), group.find(f"{SVG}title").text.splitlines()) for group in groups]
        self.arrows = [lines for kind, lines in titles if kind == "a"]
        self.refused = [lines for _, lines in titles if lines[0].startswith("refused at ")]
        self.steps = [lines for kind, lines in titles if kind is None and not lines[0].startswith("refused at ")]
        self.heads = [text.text for text in self.top.iter(f"{SVG}text")][:2]

    def events(self):
        """For each event its part, its step, its words, its title's line, and the lines of what holds it."""
        for number, lines in enumerate(self.steps):
            words = lines[0].removeprefix(f"{number}: ")
            for line in lines[2:]:
                if line.startswith("  "):
                    held.append(line.strip())
                else:
                    part, _, rest = line.partition(": ")
                    held = []
                    yield part, number, words, rest, held

    def window(self, rest):
        """The window that a line tells, and what it happened at and was reported at."""
        time = r"(\d+(?:\.\d+)?)"
        found = re.fullmatch(rf"happened at {time}(?:, reported at {time})?|only at {time}|{time} to {time}", rest)
        happened, reported, only, low, high = [None if word is None else ticks(word, self.scale) for word in found.groups()]
        return happened, reported, (only, only) if low is None else (low, high)


def name_of(part, step, words):
    """An event as titles name it."""
    return f"{'' if part == 'at' else part + ' of '}{step}: {words}"


class Pictured(Case):
    """A test that reads pictures."""

    def drawn(self, words, files, scale):
        """The picture that a call writes, which has to succeed."""
        found = call(words, files)
        self.assertEqual((found.faults, found.status), (b"", 0), words)
        self.assertNotIn(b"<script", found.answers)
        return Picture(found.answers, scale)

    def keeps(self, picture, events, bounds, windows, moments):
        """The titles tell the events and windows, and only bounds that hold these."""
        names = [name_of(*event) for event in events]
        for e, (part, step, words, rest, held) in enumerate(picture.events()):
            self.assertEqual((part, step, words), events[e])
            happened, _, window = picture.window(rest)
            if moments[e] is None:
                self.assertEqual(window, windows[e])
            else:
                self.assertEqual(happened, moments[e])
            for line in held:
                self.holds(line, e, names, bounds, windows)
        self.assertEqual(sum(1 for _ in picture.events()), len(events))

    def holds(self, line, e, names, bounds, windows):
        """A line tells of a bound of the network that holds the earliest or the latest moment of an event."""
        which, number, _, other = re.fullmatch(r"(earliest|latest) by bound (\d+)(, (?:behind|before) (.*))?", line).groups()
        f, t, w = bounds[int(number)]
        if which == "earliest":
            self.assertEqual((f, windows[f][0]), (e, (windows[t][0] if other else 0) - w))
            self.assertEqual(other, names[t] if other else None)
        else:
            self.assertEqual((t, windows[t][1]), (e, (windows[f][1] if other else 0) + w))
            self.assertEqual(other, names[f] if other else None)

    def points(self, picture, events, bounds):
        """Each arrow goes between events that a bound joins, as its title says."""
        names = [name_of(*event) for event in events]
        for first, second, *lines in picture.arrows:
            ends = names.index(second.removeprefix("before ")), names.index(first)
            self.assertTrue(lines)
            for line in lines:
                number = re.fullmatch(r"bound (\d+) holds the (?:earliest moment of the second|latest moment of the first)", line)[1]
                self.assertEqual(bounds[int(number)][:2], ends)

    def tells_the_plan(self, picture, spans):
        for lines, (start, end) in zip(picture.steps, spans, strict=True):
            found = [ticks(word, picture.scale) for word in lines[1].removeprefix("plan: ").split(" to ")]
            self.assertIn(found, ([start, end], [start]))


class Drawn(Pictured):
    def test_pictures_of_plans_tell_their_windows(self):
        for files, scale, horizons in plans():
            spans = times(files["plan"], scale)
            for given in horizons:
                with self.subTest(f"{files['plan'][:40]!r} {given}"):
                    horizon = int(given.split()[-1]) if given else max([end for _, end in spans], default=0)
                    picture = self.drawn(f"{DRAW} --scale {scale} {given}", files, scale)
                    options = f"--scale {scale} --horizon {horizon}"
                    events, bounds = network(files, options)
                    asked = "".join(f"window {e}\n" for e in range(len(events)))
                    answers = call(f"run domain problem plan {options}", files, whole(asked)).answers.decode().splitlines()
                    windows = [tuple(int(word) for word in line.split()[1:]) for line in answers[: len(events)]]
                    self.keeps(picture, events, bounds, windows, [None for _ in events])
                    self.points(picture, events, bounds)
                    self.tells_the_plan(picture, spans)
                    self.assertIn(f"{len(spans)} steps; windows if all ends by ", picture.heads[1])

    def test_plans_that_are_not_valid_are_answered_as_by_check(self):
        for plan in ("0: (charge) [7]\n", "0: (rest) [4]\n1: (rest) [9]\n"):
            with self.subTest(plan):
                checked = call("check domain problem plan", files_of(CHARGE, plan))
                self.assertEqual(checked.status, 1)
                self.comes_to(checked, DRAW, files_of(CHARGE, plan))

    def test_faults_are_those_of_net(self):
        for pair, plan, words in (
            (CHARGE, "0: (dash) [7]\n", ""),
            (CHARGE, "98: (rest) [4]\n", "--horizon 100"),
            ((CHARGE[0], ""), "0: (rest) [4]\n", ""),
            ((CHARGE[0] + ")", CHARGE[1]), "0: (rest) [4]\n", ""),
            (CHARGE, FOLDER, ""),
        ):
            with self.subTest(f"{plan!r} {words}"):
                wanted = call(f"net domain problem plan {words}", files_of(pair, plan))
                self.assertIn(wanted.status, (2, 3))
                self.comes_to(wanted, f"{DRAW} {words}", files_of(pair, plan))

    def test_files_are_opened_once(self):
        files = {name: Once(text) for name, text in files_of(MATCH, LIT).items()}
        self.assertEqual(call(DRAW, files).status, 0)

    # behind some numbers of bytes
    def test_writers_that_fail(self):
        text = call(DRAW, files_of(MATCH, LIT)).answers
        for room in (0, 1, 100, len(text) - 1):
            with self.subTest(f"{room} bytes"):
                wanted = told(text[:room], "fault script 2 write\n", 3)
                self.comes_to(wanted, DRAW, files_of(MATCH, LIT), room=room)

    def test_pictures_of_the_pages(self):
        for name, folder, words, count in () if is_refusing() else PAGES:
            with self.subTest(name):
                domain, problem, plan = example(folder, "problem.pddl", "plan-valid.plan")
                lines = (TOP / "examples" / folder / "plan-valid.log").read_text().splitlines(keepends=True)
                wanted = told((TOP / "docs/pictures" / name).read_bytes())
                self.comes_to(wanted, words, files_of((domain, problem), plan, "".join(lines[:count])))


def drawn_commands(drawn, count, horizon):
    """Lags and commands of a run that are drawn: some are refused."""
    lags = "".join(f"lag {e} {drawn.randint(1, horizon // 10)}\n" for e in range(count) if drawn.random() < 0.4)
    now, lines = 0, []
    for _ in range(4 * count):
        e, kind = drawn.randrange(count), drawn.random()
        if kind < 0.3:
            now = min(horizon, now + drawn.randint(0, horizon // 15))
            lines.append(f"advance {now}")
        elif kind < 0.7:
            lines.append(f"dispatch {e}")
        elif kind < 0.85:
            lines.append(f"happened {e} {max(0, now - drawn.randint(0, horizon // 20))}")
        elif kind < 0.95:
            lines.append(f"add {drawn.choice(['o', e])} {drawn.randrange(count)} {drawn.randint(0, horizon)}")
        else:
            lines.append(drawn.choice(["window 0", "report", "what", f"withdraw {drawn.randrange(2 * count)}"]))
    return lags, "".join(f"{line}\n" for line in lines)


class DrawnRuns(Pictured):
    def run_of(self, files, options, lags, commands, count):
        """The journal of a run, its answers, and windows and report behind it."""
        ran = call(f"run domain problem plan {options} --journal {LOG}", files, whole(lags + commands))
        asked = "".join(f"window {e}\n" for e in range(count)) + "report\n"
        answers = call(f"run domain problem plan {options}", files, whole(lags + commands + asked)).answers.decode().splitlines()
        lines = answers[commands.count("\n") :][: count + 1]
        windows = [tuple(int(word) for word in line.split()[1:]) for line in lines[:count]]
        return ran.journal.decode(), windows, lines[count].split()

    def bounds_of(self, bounds, journal):
        """The bounds in force behind a journal; the origin is event -1."""
        bounds, lines = dict(bounds), journal.splitlines()
        for command, answer in zip(lines, lines[1:]):
            words = command.split()[1:]
            if command.startswith("> add ") and answer.startswith("< bound "):
                bounds[int(answer.split()[2])] = tuple(-1 if word == "o" else int(word) for word in words[1:])
            if command.startswith("> withdraw ") and answer == "< ok":
                del bounds[int(words[1])]
        return bounds

    def draws_the_run(self, files, scale, horizon, events, bounds, lags, commands):
        options = f"--scale {scale} --horizon {horizon}"
        journal, windows, report = self.run_of(files, options, lags, commands, len(events))
        moments = [int(word[:-1]) if word.endswith("!") else None for word in report[3:]]
        picture = self.drawn(f"{DRAW} --scale {scale} --journal log", {**files, "log": journal}, scale)
        bounds = self.bounds_of(bounds, journal)
        self.keeps(picture, events, bounds, windows, moments)
        self.points(picture, events, bounds)
        self.tells_the_plan(picture, times(files["plan"], scale))
        self.tells_the_run(picture, journal, report)

    def tells_the_run(self, picture, journal, report):
        """The heading, late reports and refused commands are those of the journal."""
        done, lines = sum(word.endswith("!") for word in report[3:]), journal.splitlines()
        said = f"{done} of {len(report) - 3} events happened by "
        self.assertIn(said, picture.heads[1])
        self.assertIn(f"after {sum(line.startswith('> ') for line in lines)} commands", picture.heads[1])
        self.assertEqual("bounds of the plan withdrawn" in picture.heads[1], report[2] == "altered")
        wanted = [
            f"line {number}: {command[2:]}: {answer[2:]}"
            for number, (command, answer) in enumerate(zip(lines, lines[1:]), 1)
            if command.startswith("> ") and answer.startswith("< refused conflict")
        ]
        self.assertEqual([line for lines in picture.refused for line in lines[1:]], wanted)
        now = 0
        late = {}
        for command, answer in zip(lines, lines[1:]):
            words = command.split()[1:]
            if command.startswith("> advance ") and answer == "< ok":
                now = int(words[1])
            if command.startswith("> happened ") and answer == "< ok" and int(words[2]) < now:
                late[int(words[1])] = now
        found = {e: picture.window(rest)[1] for e, (_, _, _, rest, _) in enumerate(picture.events())}
        self.assertEqual({e: at for e, at in found.items() if at is not None}, late)

    def test_pictures_of_runs_tell_their_state(self):
        drawn = random.Random("pictures")
        for folder, problem, plan, scale, horizon in () if is_refusing() else RUNS:
            domain, problem, plan = example(folder, problem, plan)
            files = files_of((domain, problem), plan)
            events, bounds = network(files, f"--scale {scale} --horizon {horizon}")
            for number in range(6):
                with self.subTest(f"{folder} {number}"):
                    lags, commands = drawn_commands(drawn, len(events), horizon)
                    self.draws_the_run(files, scale, horizon, events, bounds, lags, commands)

    def test_a_run_of_a_small_plan(self):
        files = files_of(MATCH, LIT)
        events, bounds = network(files, "--horizon 20")
        for number in range(3):
            with self.subTest(number):
                lags, commands = drawn_commands(random.Random(number), len(events), 20)
                self.draws_the_run(files, 1, 20, events, bounds, lags, commands)

    def journal(self):
        commands = whole("dispatch 0\nadvance 3\ndispatch 3\n")
        return call(f"run domain problem plan --horizon 20 --journal {LOG}", files_of(MATCH, LIT), commands).journal.decode()

    # a journal that is none, or of another network, is refused as by `audit`
    def test_journals_that_are_not_drawn(self):
        log = self.journal()
        for name, other, options in (
            ("empty", "", "--horizon 20"),
            ("cut in a line", log[:-1], "--horizon 20"),
            ("cut behind a question", log[: log.rindex("<")], "--horizon 20"),
            ("no head", log[log.index("\n") + 1 :], "--horizon 20"),
            ("an answer that is not allowed", log.replace("< ok", "< bound 3", 1), "--horizon 20"),
            ("another horizon", log, "--horizon 21"),
            ("fewer bounds", re.sub(r"own (\d+)", lambda own: f"own {int(own[1]) - 1}", log), "--horizon 20"),
            ("a network by hand", "journal 2\nnetwork 4 20\nbare\n", "--horizon 20"),
            ("another network", log.replace("network 4", "network 5"), "--horizon 20"),
        ):
            with self.subTest(name):
                wanted = call(f"audit log domain problem plan {options}", files_of(MATCH, LIT, other))
                self.assertNotEqual(wanted.status, 0)
                self.comes_to(wanted, f"{DRAW} {options} --journal log", files_of(MATCH, LIT, other))

    def test_the_horizon_is_that_of_the_journal(self):
        files = files_of(MATCH, LIT, self.journal())
        wanted = call(f"{DRAW} --journal log --horizon 20", files)
        self.assertEqual(wanted.status, 0)
        self.comes_to(wanted, f"{DRAW} --journal log", files)

    def test_a_journal_that_is_not_there(self):
        self.comes_to(told("", "fault file 1 read log\n", 3), f"{DRAW} --journal log", files_of(MATCH, LIT))
