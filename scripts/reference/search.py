#!/usr/bin/env python3
"""search.py DOMAIN PROBLEM [--scale S] [--horizon H] [--budget B]

Prints what `tempo plan` prints, with its exit status; slow, and written as the order of
nodes is worded: every happening is worked out anew from the state before it."""

import argparse
import heapq
import sys

import validity
from check import load_task
from reader import Fault, Step
from validity import Event, apply, first_pair, holds, interferes, value

MOST_STEPS = 512


class Node:
    """A tick, the state before its happening, its events, the steps that run past it, all steps
    so far, and the last action's number chosen at the tick."""

    def __init__(self, tick, before, events, running, steps, chosen):
        self.tick, self.before, self.events = tick, before, events
        self.running, self.steps, self.chosen = running, steps, chosen
        self.own = apply(events, *before) if events else before


def met(reach, positive, c):
    """Whether a condition, or its negation, is met where negated atoms and comparisons count as met."""
    kind = c[0]
    if kind == "atom":
        return c[1] in reach if positive else True
    if kind == "cmp":
        return True
    if kind == "truth":
        return c[1] == positive
    if kind == "not":
        return met(reach, not positive, c[1])
    if kind == "imply":
        parts = [met(reach, not positive, c[1]), met(reach, positive, c[2])]
        return any(parts) if positive else all(parts)
    parts = [met(reach, positive, x) for x in c[1]]
    return all(parts) if (kind == "and") == positive else any(parts)


def in_reach(task):
    reach = {a for a, t in task.problem.atoms.items() if t}
    while True:
        added = set()
        for a in task.actions:
            for part, condition in a.conditions.items():
                if met(reach, True, condition):
                    added |= {e[1] for e in a.effects[part] if e[0] == "add"}
        if added <= reach:
            return met(reach, True, task.goal)
        reach |= added


def conjuncts(goal):
    return goal[1] if goal[0] == "and" else [goal]


def mentions_duration(x):
    if x[0] in ("num", "fluent", "duration"):
        return x[0] == "duration"
    return any(mentions_duration(y) for y in x[1:])


def uses_duration(action):
    writes = [e for es in action.effects.values() for e in es if e[0] not in ("add", "delete")]
    return any(mentions_duration(e[2]) for e in writes)


def least_duration(action, before, scale):
    """In ticks, None where there is none; 0 for an instantaneous action."""
    if not action.durative:
        return 0
    low, high = 1, None
    for op, x in action.rule:
        v = value(x, before[1], None)
        if v is None:
            return None
        if op in ("=", ">="):
            low = max(low, v * scale)
        if op in ("=", "<="):
            high = v * scale if high is None else min(high, v * scale)
    if uses_duration(action):
        low = -(-low // scale) * scale
    return low if high is None or low <= high else None


def can_happen(events, before):
    atoms, fluents = before
    return (
        not any(e.undefined(fluents) for e in events)
        and all(holds(e.condition, atoms, fluents) for e in events)
        and not any(e.clash() for e in events)
        and first_pair(events) is None
    )


class Search:
    def __init__(self, task, scale, horizon):
        self.task, self.scale, self.horizon = task, scale, horizon
        self.queue, self.made, self.waits = [], 0, set()
        self.conjuncts = conjuncts(task.goal)

    def add(self, node):
        lacking = sum(not holds(c, *node.own) for c in self.conjuncts)
        heapq.heappush(self.queue, (lacking, self.made, node))
        self.made += 1

    def event(self, step, part):
        return Event(0, 0, step, part, self.scale)

    def is_plan(self, node):
        return not node.running and holds(self.task.goal, *node.own)

    def expand(self, node):
        for number in range(node.chosen + 1, len(self.task.actions)):
            self.choose(node, number)
        if all(holds(s.action.invariant, *node.own) for s in node.running):
            ticks = [node.tick + 1] if node.events else []
            if node.running:
                ticks.append(min(s.tick + s.duration for s in node.running))
            for tick in dict.fromkeys(ticks):
                self.wait(node, tick)

    def choose(self, node, number):
        action = self.task.actions[number]
        duration = least_duration(action, node.before, self.scale)
        if duration is None or node.tick + duration > self.horizon or len(node.steps) == MOST_STEPS:
            return
        step = Step(node.tick, action, duration)
        event = self.event(step, "start" if action.durative else "only")
        # the events of the node can happen; one more of them has to as well
        if any(interferes(e, event) for e in node.events) or not can_happen([event], node.before):
            return
        running = node.running + [step] if action.durative else node.running
        self.add(Node(node.tick, node.before, node.events + [event], running, node.steps + [step], number))

    def wait(self, node, tick):
        if tick > self.horizon:
            return
        due = [s for s in node.running if s.tick + s.duration == tick]
        events = [self.event(s, "end") for s in due]
        if not can_happen(events, node.own):
            return
        left = sorted((self.number(s), s.duration, s.tick + s.duration - tick) for s in node.running)
        atoms, fluents = node.own
        key = (frozenset(atoms), frozenset(fluents.items()), tuple(left))
        if key in self.waits:
            return
        self.waits.add(key)
        running = [s for s in node.running if s.tick + s.duration > tick]
        self.add(Node(tick, node.own, events, running, node.steps, -1))

    def number(self, step):
        return self.task.actions.index(step.action)

    def run(self, budget):
        if not in_reach(self.task):
            return "unreachable", None
        atoms = {a for a, t in self.task.problem.atoms.items() if t}
        self.add(Node(0, (atoms, dict(self.task.problem.fluents)), [], [], [], -1))
        expanded = 0
        while self.queue:
            _, _, node = heapq.heappop(self.queue)
            if self.is_plan(node):
                return "plan", node.steps
            if expanded == budget:
                return f"spent {budget}", None
            expanded += 1
            self.expand(node)
        return "exhausted", None


def ticks_text(ticks, scale):
    places = len(str(scale)) - 1
    return f"{ticks // scale}.{ticks % scale:0{places}}" if places else str(ticks)


def plan_text(steps, scale):
    lines = []
    for s in steps:
        line = f"{ticks_text(s.tick, scale)}: {s.action.text()}"
        if s.action.durative:
            line += f" [{ticks_text(s.duration, scale)}]"
        lines.append(line + "\n")
    return "".join(lines)


def answer(task, scale, horizon, budget):
    """(text, exit status), as the program prints it."""
    word, steps = Search(task, scale, horizon).run(budget)
    return (plan_text(steps, scale), 0) if word == "plan" else (word + "\n", 1)


def main():
    p = argparse.ArgumentParser()
    p.add_argument("domain")
    p.add_argument("problem")
    p.add_argument("--scale", type=int, choices=(1, 10, 100, 1000), default=1)
    p.add_argument("--horizon", type=int, default=1_000_000)
    p.add_argument("--budget", type=int, default=100_000)
    w = p.parse_args()
    try:
        task = load_task(w.domain, w.problem)
    except Fault as f:
        print(f.line, file=sys.stderr)
        return f.status
    text, status = answer(task, w.scale, w.horizon, w.budget)
    sys.stdout.write(text)
    if validity.passed_limit[0]:
        print("note: a number passed 10^15; the program may answer Range", file=sys.stderr)
    return status


if __name__ == "__main__":
    sys.exit(main())
