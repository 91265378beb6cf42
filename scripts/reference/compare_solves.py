#!/usr/bin/env python3
"""compare_solves.py DIR PROGRAM: runs `PROGRAM solve ..` and `PROGRAM plan ..` on each case of DIR
that random_searches.py made, and prints those where

- a call ends with another fault than one of the task or a number past 10^15, or by a signal,
- the reference does not take the plan of `solve` for valid,
- `plan` finds a plan and `solve` none: `solve` gets four times the budget, so that the search of
  `plan` has at least the whole of it left,
- `plan` says `unreachable` and `solve` does not,
- `solve` says `spent N` with another number than its budget,
- a second call prints something else, or with `--improve` a plan that ends later."""

import subprocess
import sys
from collections import Counter
from pathlib import Path

import check

FAULTS = ("fault search 2 range", "fault ground ")


def run(words):
    done = subprocess.run(words, capture_output=True, text=True)
    return done.stdout, done.stderr, done.returncode


def makespan(plan, scale):
    """When the last step of a printed plan ends, in ticks."""
    last = 0
    for line in plan.splitlines():
        start, rest = line.split(":", 1)
        length = rest.rsplit("[", 1)[1].rstrip("]") if rest.endswith("]") else "0"
        last = max(last, round(float(start) * scale) + round(float(length) * scale))
    return last


def wrong(program, names, scale, horizon, budget):
    """What is wrong with the answers to a case, and what kind of answer it is."""
    limits = ["--scale", scale, "--horizon", horizon]
    wide = ["--budget", str(4 * int(budget))]
    solve = run([*program, "solve", *names, *limits, *wide])
    plan = run([*program, "plan", *names, *limits, "--budget", budget])
    text, fault, status = solve
    if status == 2 and fault.startswith(FAULTS) or status == 2 == plan[2] and fault == plan[1]:
        return None, "fault"
    if status not in (0, 1):
        return f"{text!r} {fault!r} ({status})", "fault"
    kind = "plan" if status == 0 else text.split()[0]
    if run([*program, "solve", *names, *limits, *wide]) != solve:
        return "a second call prints something else", kind
    if plan[0] == "unreachable\n" != text:
        return f"{text!r}, and of `plan` {plan[0]!r}", kind
    if plan[2] == 0 and status != 0:
        return f"{text!r}, and `plan` finds {plan[0]!r}", kind
    if text.startswith("spent") and text != f"spent {4 * int(budget)}\n":
        return f"{text!r}, and the budget is {4 * int(budget)}", kind
    if status == 0:
        task = check.load_task(*names)
        for found in (text, run([*program, "solve", *names, *limits, *wide, "--improve"])[0]):
            line, _ = check.verdict(task, found.encode(), int(scale), int(horizon))
            if line != "valid":
                return f"{found!r} is {line}", kind
            if makespan(found, int(scale)) > makespan(text, int(scale)):
                return f"{found!r} ends later than {text!r}", kind
    return None, kind


def main():
    if {"-h", "--help"} & {*sys.argv[1:]}:
        print(__doc__.strip())
        sys.exit()
    folder, program = Path(sys.argv[1]), sys.argv[2:]
    bad, kinds = 0, Counter()
    for row in (folder / "searches.tsv").read_text().splitlines():
        domain, problem, scale, horizon, budget, *_ = row.split("\t")
        names = [str(folder / domain), str(folder / problem)]
        why, kind = wrong(program, names, scale, horizon, budget)
        kinds[kind] += 1
        if why is not None:
            bad += 1
            print(f"{domain}, {problem}, scale {scale}, horizon {horizon}, budget {budget}: {why}")
    print(f"{sum(kinds.values())} cases, {bad} differ: {dict(kinds)}")
    return bad > 0


if __name__ == "__main__":
    sys.exit(main())
