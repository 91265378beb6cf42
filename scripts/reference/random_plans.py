#!/usr/bin/env python3
"""random_plans.py --seed N --count K --out DIR [--examples DIR]

Perturbs the plans of the example domains: shifted, aligned and swapped ticks, other
durations, swapped lines, dropped, doubled and invented steps, other arguments, other
spellings, now and then a line at fault.  The same seed gives the same folder."""

import random
from pathlib import Path

from cases import Cases, arguments
from check import load, load_task
from reader import read_plan

SCALES = {"test-bench": 1000}
HORIZON = 1_000_000


class Line:
    """A step of a plan as it is to be written."""

    def __init__(self, tick, words, duration):
        self.tick, self.words, self.duration = tick, list(words), duration

    def copy(self):
        return Line(self.tick, self.words, self.duration)


def lines_of(task, path, scale):
    steps = read_plan(load(path, "plan"), task, scale, HORIZON)
    return [
        Line(s.tick, (s.action.name, *s.action.args), s.duration if s.action.durative else None)
        for s in steps
    ]


def event_ticks(lines):
    return [t for x in lines for t in (x.tick, x.tick + (x.duration or 0))]


def perturb(lines, task, scale, rng):
    """One change of a plan in place."""
    steps = (1, 1, 1, 2, 3, 5, 10) if scale == 1 else (1, 1, 2, 125, 250, 500, 1000, 3000)
    by = rng.choice((-1, 1)) * rng.choice(steps)
    x, y = rng.choice(lines), rng.choice(lines)
    i, j = rng.randrange(len(lines)), rng.randrange(len(lines))
    what = rng.randrange(15)
    if what <= 2:
        x.tick = max(0, x.tick + by)
    elif what == 3:
        x.tick = rng.choice(event_ticks(lines))
    elif what == 4 and x.duration is not None:
        x.tick = max(0, rng.choice(event_ticks(lines)) - x.duration)
    elif what == 5:
        x.tick, y.tick = y.tick, x.tick
    elif what == 6:
        lines[i], lines[j] = lines[j], lines[i]
    elif what in (7, 8) and x.duration is not None:
        x.duration = max(0, x.duration + by)
    elif what == 9 and x.duration is not None:
        x.duration = max(0, rng.choice(event_ticks(lines)) - x.tick)
    elif what == 10 and len(lines) > 1:
        del lines[i]
    elif what == 11:
        lines.insert(j, x.copy())
    elif what == 12 and len(x.words) > 1:
        x.words[rng.randrange(1, len(x.words))] = rng.choice(task.objects)[0]
    elif what == 13:
        a = rng.choice(task.actions)
        if rng.random() < 0.5:
            a = rng.choice([b for b in task.actions if b.name == x.words[0]] or [a])
        lines.insert(j, invented(a, lines, scale, rng))
    elif what == 14:
        a = rng.choice([b for b in task.actions if not b.durative])
        lines.insert(j, invented(a, lines, scale, rng))


def invented(action, lines, scale, rng):
    duration = scale * rng.randrange(1, 12) if action.durative else None
    return Line(rng.choice(event_ticks(lines)) + rng.choice((0, 0, 1)), (action.name, *action.args), duration)


def time_text(ticks, scale, rng):
    whole, part = divmod(ticks, scale)
    digits = len(str(scale)) - 1
    if digits == 0:
        return str(whole) + ("." + "0" * rng.randrange(1, 5) if rng.random() < 0.05 else "")
    text = f"{part:0{digits}}"
    if rng.random() < 0.2:
        text = text.rstrip("0")
    return f"{whole}.{text}" if text else str(whole)


def spelled(line, scale, rng):
    text = f"{time_text(line.tick, scale, rng)}: ({' '.join(line.words)})"
    if line.duration is not None:
        text += f" [{time_text(line.duration, scale, rng)}]"
    elif rng.random() < 0.05:
        text += " [0.123456]"
    return text


def at_fault(text, rng):
    """A line with something wrong, or at least odd."""
    which = rng.randrange(9)
    if which == 0:
        return text.replace("]", "").replace("[", "")
    if which == 1:
        return text.split("[")[0]
    if which == 2:
        return text.replace(":", rng.choice((".0005:", ".:", "", " :", "::")), 1)
    if which == 3:
        return "-" + text
    if which == 4:
        return text.replace("[", "[0.", 1) if "[" in text else text + " x"
    if which == 5:
        return text.replace("(", "(no-", 1)
    if which == 6:
        return rng.choice(("9999999: ", "5000000000: ", "999999: ", "1000000: ")) + text.split(":", 1)[1]
    if which == 7:
        return text.replace(")", " )", 1).replace(" ", rng.choice((" \t", "  ", "\f", "\r")))
    return text.replace(")", rng.choice((" \x01)", " 1x)", " ?x)", " a(b)", "))")), 1)


def plan_text(lines, scale, rng):
    out = []
    odd = rng.randrange(len(lines)) if rng.random() < 0.06 else None
    for i, line in enumerate(lines):
        if rng.random() < 0.03:
            out.append(rng.choice(("", "; a remark", "  \t", "; (not) a [step]")))
        text = spelled(line, scale, rng)
        if i == odd:
            text = at_fault(text, rng)
        elif rng.random() < 0.03:
            text = text.upper()
        if rng.random() < 0.03:
            text = rng.choice((text + " ; so", "\t" + text, text + "\r", text + ";"))
        out.append(text)
    return "\n".join(out) + rng.choice(("", "\n", "\n\n"))


def main():
    w = arguments(with_examples=True)
    rng = random.Random(w.seed)
    cases = Cases(w.out)
    worlds = []
    for folder in sorted(Path(w.examples).iterdir()):
        if not (folder / "domain.pddl").is_file():
            continue
        scale = SCALES.get(folder.name, 1)
        domain, problem = (folder / n for n in ("domain.pddl", "problem.pddl"))
        task = load_task(domain, problem)
        plans = {f.name: lines_of(task, f, scale) for f in sorted(folder.glob("*.plan"))}
        worlds.append((domain.resolve(), problem.resolve(), task, scale, plans))
    while cases.count < w.count:
        domain, problem, task, scale, plans = rng.choice(worlds)
        name = rng.choice(("plan-valid.plan",) * 4 + tuple(sorted(plans)))
        lines = [x.copy() for x in plans[name]]
        for _ in range(rng.choice((1, 1, 1, 2, 2, 3, 5))):
            perturb(lines, task, scale, rng)
        horizon = rng.choice((HORIZON,) * 20 + (60 * scale, 133 * scale))
        cases.add(task, plan_text(lines, scale, rng), domain, problem, scale, horizon)
    cases.close()


if __name__ == "__main__":
    main()
