"""Networks of plans in files, worked by hand."""
from program import Case, call, told_by, world

NET = "net domain problem plan"

NET_UP_TO_100 = "net domain problem plan --horizon 100"

MATCH = (world("MATCH"), world("MATCHES"))

TOGGLE = (world("TOGGLE"), world("TOGGLED"))

TANK = (world("TANK"), world("EMPTY_TANK"))

CHARGE = (world("CHARGE"), world("UNCHARGED"))

LINE = (world("LINE"), world("UNSET"))

# a domain and a problem, a plan of theirs, the words of the call, what it writes, and its exit status
NETWORKS = (
    (
        MATCH,
        "0: (light-match m1) [8]\n0: (mend-fuse f1) [5]\n",
        NET,
        "event 0 start 0 (light-match m1)\nevent 1 end 0 (light-match m1)\n"
        "event 2 start 1 (mend-fuse f1)\nevent 3 end 1 (mend-fuse f1)\n"
        "bound 0 1 0 -1\nbound 1 1 0 -8\nbound 2 0 1 8\nbound 3 3 2 -5\nbound 4 2 3 5\n"
        "bound 5 2 0 0\nbound 6 1 3 0\n",
        0,
    ),
    (
        TOGGLE,
        "0: (watch) [5]\n2: (give)\n3: (drop)\n",
        NET,
        "event 0 start 0 (watch)\nevent 1 end 0 (watch)\nevent 2 at 1 (give)\nevent 3 at 2 (drop)\n"
        "bound 0 1 0 -5\nbound 1 0 1 5\nbound 2 2 0 0\nbound 3 1 2 0\nbound 4 3 0 0\n"
        "bound 5 1 3 0\nbound 6 3 2 0\n",
        0,
    ),
    (
        TANK,
        "1: (fill-a)\n1: (fill-b)\n",
        NET_UP_TO_100,
        "event 0 at 0 (fill-a)\nevent 1 at 1 (fill-b)\n",
        0,
    ),
    (
        TANK,
        "0: (hold) [4]\n1: (fill-a)\n1: (fill-b)\n",
        NET_UP_TO_100,
        "event 0 start 0 (hold)\nevent 1 end 0 (hold)\nevent 2 at 1 (fill-a)\nevent 3 at 2 (fill-b)\n"
        "bound 0 1 0 -1\nbound 1 2 0 0\nbound 2 1 2 0\nbound 3 3 0 0\nbound 4 1 3 0\n"
        "bound 5 3 2 0\nbound 6 2 3 0\n",
        0,
    ),
    (
        CHARGE,
        "0: (charge) [4]\n",
        NET,
        "event 0 start 0 (charge)\nevent 1 end 0 (charge)\nbound 0 1 0 -4\nbound 1 0 1 4\n",
        0,
    ),
    (
        CHARGE,
        "0: (rest) [4]\n",
        NET,
        "event 0 start 0 (rest)\nevent 1 end 0 (rest)\nbound 0 1 0 -2\nbound 1 0 1 6\n",
        0,
    ),
    # the order of the first and the last follows from those of each with the one between
    (
        LINE,
        "0: (set)\n1: (set)\n2: (set)\n",
        NET,
        "event 0 at 0 (set)\nevent 1 at 1 (set)\nevent 2 at 2 (set)\nbound 0 1 0 -1\nbound 1 2 1 -1\n",
        0,
    ),
    # however they are numbered
    (
        LINE,
        "2: (set)\n0: (set)\n1: (set)\n",
        NET,
        "event 0 at 0 (set)\nevent 1 at 1 (set)\nevent 2 at 2 (set)\nbound 0 2 1 -1\nbound 1 0 2 -1\n",
        0,
    ),
    # one drop between the need and the other does not interfere with that one
    (
        TOGGLE,
        "0: (need)\n1: (drop)\n2: (drop)\n",
        NET,
        "event 0 at 0 (need)\nevent 1 at 1 (drop)\nevent 2 at 2 (drop)\nbound 0 1 0 -1\nbound 1 2 0 -1\n",
        0,
    ),
    (
        TOGGLE,
        "0: (need)\n1: (need)\n2: (drop)\n",
        NET,
        "event 0 at 0 (need)\nevent 1 at 1 (need)\nevent 2 at 2 (drop)\nbound 0 2 0 -1\nbound 1 2 1 -1\n",
        0,
    ),
)

OTHERS = (
    (CHARGE, "0: (charge) [7]\n", NET, "invalid 0 duration 0\n", 1),
    (TOGGLE, "3: (need)\n3: (drop)\n", NET, "invalid 3 interferes 0 1\n", 1),
    (CHARGE, "0: (dash) [7]\n", NET, "fault plan 3 no-action 1\n", 2),
    (CHARGE, "98: (rest) [4]\n", NET_UP_TO_100, "fault plan 7 horizon 1\n", 2),
)


def files(named, plan):
    """The files of a domain, a problem and a plan."""
    return {"domain": named[0], "problem": named[1], "plan": plan}


def sets(count):
    """A plan of that many steps, a tick apart, that all interfere."""
    return files(LINE, "".join(f"{tick}: (set)\n" for tick in range(count)))


def sides(needs, drops):
    """A plan of that many steps that need an atom, and that many a tick later that drop it: the pairs from both sides interfere."""
    return files(TOGGLE, "0: (need)\n" * needs + "1: (drop)\n" * drops)


class Net(Case):
    def are_right(self, rows):
        for (domain, problem), plan, words, text, status in rows:
            with self.subTest(f"{plan!r} {words}"):
                self.comes_to(told_by(text, status), words, files((domain, problem), plan))

    def test_networks_of_small_plans(self):
        self.are_right(NETWORKS)

    def test_plans_that_have_no_network(self):
        self.are_right(OTHERS)

    # all 130,816 pairs interfere, and each order of two steps further apart follows from two others
    def test_as_many_steps_as_a_plan_has_keep_511_bounds(self):
        events = "".join(f"event {k} at {k} (set)\n" for k in range(512))
        bounds = "".join(f"bound {k} {k + 1} {k} -1\n" for k in range(511))
        self.comes_to(told_by(events + bounds, 0), NET, sets(512))

    # 255 * 257 pairs are 65,535, 256 * 256 are one more; nothing stands between two of them
    def test_at_most_65535_bounds(self):
        with self.subTest("255 needs, 257 drops"):
            found = call(NET, sides(255, 257))
            self.assertEqual((found.faults, found.status), (b"", 0))
            self.assertEqual(found.answers.count(b"\nbound "), 65_535)
            self.assertTrue(found.answers.endswith(b"\nbound 65534 511 254 -1\n"))
        with self.subTest("256 needs, 256 drops"):
            self.comes_to(told_by("fault net 2 too-many\n", 2), NET, sides(256, 256))
