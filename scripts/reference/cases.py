"""A folder of cases: plans, and a table of what is expected of each.

`expected.tsv` has one line per case: plan, domain, problem, scale, horizon, exit
status, line; paths of plans (and of domains made with them) are relative to the
folder, others absolute.  Cases in which a number passes 10^15 are left out, since
the program may answer Range there.  A case is judged twice: by the task of all ground
actions, and by that of the actions that the plan names."""

import argparse
import collections
from pathlib import Path

import validity
from check import verdict
from task import Task


EXAMPLES = Path(__file__).resolve().parents[2] / "examples"


def arguments(with_examples=False, with_wide=False):
    """The words of a call that makes a folder of cases."""
    p = argparse.ArgumentParser()
    p.add_argument("--seed", type=int, default=1)
    p.add_argument("--count", type=int, default=1000)
    p.add_argument("--out", required=True)
    if with_examples:
        p.add_argument("--examples", default=str(EXAMPLES))
    if with_wide:
        p.add_argument("--wide", action="store_true")
    return p.parse_args()


def kind_of(line):
    """`valid`, `invalid WHY`, or `fault PART WORD` with what is left out or wrong in a text."""
    words = line.split()
    if words[0] == "invalid":
        return f"invalid {words[2]}"
    if words[0] == "fault":
        more = words[5:6] if words[3] in ("text", "left-out") else []
        return " ".join((words[0], words[1], words[3], *more))
    return words[0]


class Cases:
    def __init__(self, folder):
        self.folder = Path(folder)
        self.folder.mkdir(parents=True, exist_ok=True)
        self.table = open(self.folder / "expected.tsv", "w")
        self.count = 0
        self.kinds = collections.Counter()

    def add(self, task, plan, domain, problem, scale, horizon, thin=None):
        """`thin` says whether to leave this one out, given its line."""
        validity.passed_limit[0] = False
        line, status = verdict(task, plan.encode(), scale, horizon)
        some = Task(task.domain, task.problem, named=True)
        if (line, status) != verdict(some, plan.encode(), scale, horizon):
            raise SystemExit(f"{line!r} for all actions, not for those that the plan names:\n{plan}")
        if validity.passed_limit[0]:
            self.kinds["left out: past 10^15"] += 1
            return
        if thin is not None and thin(line):
            return
        self.record(plan, domain, problem, scale, horizon, line, status)

    def record(self, plan, domain, problem, scale, horizon, line, status):
        name = f"{self.count:06}.plan"
        (self.folder / name).write_text(plan, newline="")
        row = (name, domain, problem, scale, horizon, status, line)
        self.table.write("\t".join(map(str, row)) + "\n")
        self.count += 1
        self.kinds[kind_of(line)] += 1

    def close(self):
        self.table.close()
        print(f"{self.count} cases in {self.folder}")
        for kind, n in sorted(self.kinds.items()):
            print(f"  {n:7} {kind}")
