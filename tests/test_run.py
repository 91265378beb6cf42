"""Runs of plans in files, worked by hand."""
from program import NEVER, Case, Once, broken, told, told_by, whole, world

RUN = "run domain problem plan --horizon 100"

MATCH = (world("MATCH"), world("MATCHES"))

TOGGLE = (world("TOGGLE"), world("TOGGLED"))

TANK = (world("TANK"), world("EMPTY_TANK"))

CHARGE = (world("CHARGE"), world("UNCHARGED"))

LINE = (world("LINE"), world("UNSET"))

WATCH = "0: (watch) [5]\n2: (give)\n3: (drop)\n"

REST = "0: (rest) [4]\n"

# a domain and a problem, a plan of theirs, the commands of the input, what is written, and the exit status
RUNS = (
    (
        TOGGLE,
        WATCH,
        "dispatch 0\nadvance 1\ndispatch 3\nwindow 2\nadvance 2\ndispatch 2\nadvance 5\ndispatch 1\n",
        "ok\nok\nok\nwindow 1 1\nrefused conflict now2 past3+ b6\nok\nok\nok\n"
        "plan\n0: (watch) [5]\n1: (give)\n1: (drop)\n",
        0,
    ),
    (
        CHARGE,
        REST,
        "dispatch 0\nadvance 3\nadd 0 1 4\nadd 1 0 -5\nwithdraw 2\nadd 1 0 -5\nadvance 5\ndispatch 1",
        "ok\nok\nbound 2\nrefused conflict new b2\nok\nbound 3\nok\nok\nplan\n0: (rest) [5]\n",
        0,
    ),
    # an event is reported late, and lines of lags are none behind the first other line
    (
        CHARGE,
        REST,
        "lag 0 3\nadvance 4\nwindow 0\nhappened 0 0\nhappened 0 5\nhappened 0 2\nwindow 1\nreport\n"
        "advance 6\ndispatch 1\nlag 1 2\n",
        "ok\nwindow 1 98\nrefused back\nrefused moment\nok\nwindow 4 8\nreport 4 kept 2! 4\n"
        "ok\nok\nrefused line\nplan\n2: (rest) [4]\n",
        0,
    ),
    # two lags, and reports that come too early
    (
        CHARGE,
        REST,
        "lag 1 5\nlag 0 2\nadvance 2\nhappened 0 0\nadvance 12\nadvance 6\nhappened 1 0\nhappened 1 1\n"
        "happened 1 2\nreport\n",
        "ok\nok\nrefused conflict now1 past0+ b1\nok\nrefused back\nrefused conflict past1+ b0 past0-\n"
        "ok\nreport 6 kept 0! 2!\nplan\n0: (rest) [2]\n",
        0,
    ),
)

WITHOUT_A_PLAN = (
    (MATCH, "0: (light-match m1) [8]\n0: (mend-fuse f1) [5]\n", "dispatch 0\nwindow 2\n", "ok\nwindow 0 3\n", 1),
    (TANK, "1: (fill-a)\n1: (fill-b)\n", "window 0\nwindow 1\n", "window 0 100\nwindow 0 100\n", 1),
    (
        TANK,
        "0: (hold) [4]\n1: (fill-a)\n1: (fill-b)\n",
        "dispatch 0\nwindow 2\nadvance 2\ndispatch 2\nwindow 3\nwindow 1\n",
        "ok\nwindow 0 100\nok\nok\nwindow 2 2\nwindow 2 100\n",
        1,
    ),
    (CHARGE, "0: (charge) [4]\n", "dispatch 0\nwindow 1\n", "ok\nwindow 4 4\n", 1),
    (LINE, "0: (set)\n1: (set)\n2: (set)\n", "window 0\nwindow 2\n", "window 0 98\nwindow 2 100\n", 1),
    (CHARGE, REST, "dispatch 0\nwindow 1\n", "ok\nwindow 2 6\n", 1),
    # all events happened, but bounds of the plan were withdrawn, even if equal ones came in their place
    (
        CHARGE,
        REST,
        "report\nwithdraw 0\nwithdraw 1\nreport\nadd 0 1 6\nadd 1 0 -2\nreport\ndispatch 0\nadvance 2\ndispatch 1\n",
        "report 0 kept 0 2\nok\nok\nreport 0 altered 0 0\nbound 2\nbound 3\nreport 0 altered 0 2\nok\nok\nok\n",
        1,
    ),
    (CHARGE, REST, "", "", 1),
)

REFUSED = (
    # no commands are read for a plan that is not valid
    (CHARGE, "0: (charge) [7]\n", "dispatch 0\n", "invalid 0 duration 0\n", 1),
    (TOGGLE, "3: (need)\n3: (drop)\n", "lag 7 7\n", "invalid 3 interferes 0 1\n", 1),
    (CHARGE, "0: (dash) [7]\n", "", "fault plan 3 no-action 1\n", 2),
    (CHARGE, "98: (rest) [4]\n", "", "fault plan 7 horizon 1\n", 2),
    ((CHARGE[0], ""), REST, "", "fault problem 2 text 7 empty\n", 2),
    # lags of no event, out of range, and of an event that has one
    (CHARGE, REST, "lag 2 1\n", "fault script 5 head\n", 2),
    (CHARGE, REST, "lag 0 1000000001\n", "fault script 5 head\n", 2),
    (CHARGE, REST, "lag 0 1\nlag 0 2\n", "fault script 5 head\n", 2),
    # a head is none here
    (CHARGE, REST, "network 2 100\nwindow 0\n", "refused line\nwindow 0 98\n", 1),
)

# commands of a whole run, and what they come to
COMMANDS = "dispatch 0\nadvance 3\ndispatch 1\n"

ANSWERS = "ok\nok\nok\nplan\n0: (rest) [3]\n"

# so many bytes of the commands before the reader fails, and how many bytes are answered
READS = ((0, 0), (10, 0), (11, 3), (32, 9))


def files_of(example, plan):
    return {"domain": example[0], "problem": example[1], "plan": plan}


class Run(Case):
    def are_right(self, rows):
        for example, plan, commands, text, status in rows:
            with self.subTest(f"{plan!r} {commands!r}"):
                self.comes_to(told_by(text, status), RUN, files_of(example, plan), whole(commands))

    def test_runs_to_a_plan(self):
        self.are_right(RUNS)

    def test_runs_without_a_plan(self):
        self.are_right(WITHOUT_A_PLAN)

    def test_plans_and_inputs_that_are_refused(self):
        self.are_right(REFUSED)

    # behind each number of bytes, up to the last one of the plan
    def test_writers_that_fail(self):
        for room in range(len(ANSWERS)):
            with self.subTest(f"{room} bytes"):
                wanted = told(ANSWERS[:room], "fault script 2 write\n", 3)
                self.comes_to(wanted, RUN, files_of(CHARGE, REST), whole(COMMANDS), room)

    def test_readers_that_fail(self):
        for count, answered in READS:
            with self.subTest(f"{count} bytes"):
                wanted = told(ANSWERS[:answered], "fault script 1 read\n", 3)
                self.comes_to(wanted, RUN, files_of(CHARGE, REST), broken(COMMANDS[:count]))

    def lacks(self, name, files):
        """A call that lacks that file opens those before it once at most, none behind it, and tells of it."""
        with self.subTest(name):
            self.comes_to(told("", f"fault file 1 read {name}\n", 3), RUN, files, whole(COMMANDS))

    def test_files_that_are_not_there(self):
        domain, problem = Once(CHARGE[0]), Once(CHARGE[1])
        self.lacks("domain", {"problem": NEVER, "plan": NEVER})
        self.lacks("problem", {"domain": domain, "plan": NEVER})
        self.lacks("plan", {"domain": domain, "problem": problem})
