#!/usr/bin/env python3
"""check.py DOMAIN PROBLEM PLAN [--scale S] [--horizon H] [--stats] [--trace] [--events]

Prints what `tempo check` prints, with its exit status; a fault line goes to
standard error."""

import argparse
import sys

import validity
from reader import LONGEST, Fault, read_domain, read_plan, read_problem
from task import Task


def load(name, part):
    """A file's bytes; a domain or problem that is too long is a fault of its text."""
    try:
        with open(name, "rb") as f:
            data = f.read()
    except OSError:
        raise Fault(f"fault file 1 read {name}", 3) from None
    if len(data) > LONGEST:
        if part == "plan":
            raise Fault(f"fault file 3 too-long {name}")
        raise Fault(f"fault {part} 2 text 2 too-long")
    try:
        data.decode("utf-8")
    except UnicodeDecodeError:
        raise Fault(f"fault file 2 utf8 {name}") from None
    return data


def load_task(domain, problem, named=False):
    d = read_domain(load(domain, "domain"))
    return Task(d, read_problem(load(problem, "problem"), d), named)


def verdict(task, plan_bytes, scale, horizon):
    """(line, exit status); the line of a fault begins with `fault`."""
    try:
        line = validity.validate(task, read_plan(plan_bytes, task, scale, horizon), scale)
    except Fault as f:
        return f.line, f.status
    return line, 0 if line == "valid" else 1


def show(tick, events, _, fluents):
    print(f"-- {tick}:", ", ".join(f"{e.number} {e.part} {e.step.action.text()}" for e in events))
    print("   ", {" ".join((n, *a)): v for (n, a), v in fluents.items() if (n, a) in changing})


changing = set()


def main():
    p = argparse.ArgumentParser()
    p.add_argument("domain")
    p.add_argument("problem")
    p.add_argument("plan")
    p.add_argument("--scale", type=int, choices=(1, 10, 100, 1000), default=1)
    p.add_argument("--horizon", type=int, default=1_000_000)
    p.add_argument("--stats", action="store_true", help="size of the task, to standard error")
    p.add_argument("--trace", action="store_true", help="each happening and the numbers that plans change")
    p.add_argument("--events", action="store_true", help="the plan's events by number")
    w = p.parse_args()
    try:
        task = load_task(w.domain, w.problem, named=True)
        steps = read_plan(load(w.plan, "plan"), task, w.scale, w.horizon)
        task.count_mentioned()
        if w.stats:
            print(
                f"objects {len(task.objects)} atoms {len(task.atoms)} "
                f"fluents {len(task.fluents)} actions {len(task.actions)}",
                file=sys.stderr,
            )
    except Fault as f:
        print(f.line, file=sys.stderr)
        return f.status
    if w.events:
        for e in validity.numbered(steps, w.scale):
            print(f"event {e.number} at {e.tick}: {e.part} {e.step_number} {e.step.action.text()}")
    if w.trace:
        for s in steps:
            for e in s.action.effects.values():
                changing.update(x[1] for x in e if x[0] not in ("add", "delete"))
    line = validity.validate(task, steps, w.scale, show if w.trace else None)
    print(line)
    if validity.passed_limit[0]:
        print("note: a number passed 10^15; the program may answer Range", file=sys.stderr)
    return 0 if line == "valid" else 1


if __name__ == "__main__":
    sys.exit(main())
