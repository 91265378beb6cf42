"""Validity of a plan: the first fault in the order of verdicts.

Each rule is written as it is worded: evaluate everything in the state before,
compare sets for interference, then write the state pointwise.  Numbers have
no limit; `passed_limit` only tells whether one passed 10^15.
"""

import operator

from task import GREATEST, mention_condition, mention_expression

COMPARE = {
    "<": operator.lt,
    "<=": operator.le,
    "=": operator.eq,
    ">=": operator.ge,
    ">": operator.gt,
}
passed_limit = [False]


def noted(n):
    if abs(n) > GREATEST:
        passed_limit[0] = True
    return n


def value(x, fluents, units):
    """The value of an expression, None where there is none.

    `units` is the step's duration in units, None if it is no whole number of them."""
    kind = x[0]
    if kind == "num":
        return x[1]
    if kind == "duration":
        return units
    if kind == "fluent":
        return fluents.get(x[1])
    parts = [value(y, fluents, units) for y in x[1:]]
    if None in parts:
        return None
    if kind == "neg":
        return noted(-parts[0])
    a, b = parts
    return noted(a + b if kind == "+" else a - b if kind == "-" else a * b)


def truth(c, atoms, fluents):
    """Truth by cases; every fluent mentioned is known to have a value."""
    kind = c[0]
    if kind == "and":
        return all([truth(x, atoms, fluents) for x in c[1]])
    if kind == "or":
        return any([truth(x, atoms, fluents) for x in c[1]])
    if kind == "not":
        return not truth(c[1], atoms, fluents)
    if kind == "imply":
        left, right = truth(c[1], atoms, fluents), truth(c[2], atoms, fluents)
        return right or not left
    if kind == "atom":
        return c[1] in atoms
    if kind == "truth":
        return c[1]
    return COMPARE[c[1]](value(c[2], fluents, None), value(c[3], fluents, None))


def holds(c, atoms, fluents):
    mentioned = set()
    mention_condition(c, set(), mentioned)
    return mentioned <= fluents.keys() and truth(c, atoms, fluents)


class Event:
    def __init__(self, number, step_number, step, part, scale):
        self.number, self.step_number, self.step, self.part = number, step_number, step, part
        self.tick = step.tick + (step.duration if part == "end" else 0)
        self.units = step.duration // scale if step.duration % scale == 0 else None
        action = step.action
        self.condition = action.conditions[part]
        self.effects = action.effects[part]
        self.rule = action.rule if part == "start" else []
        self.condition_atoms, self.reads = set(), set()
        mention_condition(self.condition, self.condition_atoms, self.reads)
        for _, x in self.rule:
            mention_expression(x, self.reads)
        self.adds = {e[1] for e in self.effects if e[0] == "add"}
        self.deletes = {e[1] for e in self.effects if e[0] == "delete"}
        self.writes = [e for e in self.effects if e[0] not in ("add", "delete")]
        for e in self.writes:
            mention_expression(e[2], self.reads)
        self.additive = {e[1] for e in self.writes if e[0] in ("increase", "decrease")}
        self.setting = {e[1] for e in self.writes if e[0] in ("assign", "scale-up")}
        self.written = self.additive | self.setting

    def undefined(self, fluents):
        return (
            any(value(x, fluents, None) is None for _, x in self.rule)
            or any(value(e[2], fluents, self.units) is None for e in self.writes)
            or any(e[0] != "assign" and e[1] not in fluents for e in self.writes)
        )

    def clash(self):
        if self.additive & self.setting:
            return True
        sets = [e[1] for e in self.writes if e[0] in ("assign", "scale-up")]
        return len(sets) != len(set(sets))


def interferes(a, b):
    for x, y in ((a, b), (b, a)):
        if (x.adds | x.deletes) & y.condition_atoms:
            return True
        if x.adds & y.deletes:
            return True
        if x.written & y.reads:
            return True
        if x.setting & y.written:
            return True
    return False


def lawful(step, fluents, scale):
    """None if the rule has no value."""
    values = [(op, value(x, fluents, None)) for op, x in step.action.rule]
    if any(v is None for _, v in values):
        return None
    fits = [COMPARE[op](step.duration, noted(scale * v)) for op, v in values]
    return step.duration >= 1 and all(fits)


def numbered(steps, scale):
    events = []
    for i, s in enumerate(steps):
        for part in ("start", "end") if s.action.durative else ("only",):
            events.append(Event(len(events), i, s, part, scale))
    return events


def first_pair(events):
    for i, a in enumerate(events):
        for b in events[i + 1 :]:
            if interferes(a, b):
                return a, b
    return None


def apply(events, atoms, fluents):
    added = set().union(*(e.adds for e in events))
    deleted = set().union(*(e.deletes for e in events))
    after, sums = dict(fluents), {}
    for e in events:
        for kind, f, x in e.writes:
            v = value(x, fluents, e.units)
            if kind == "assign":
                after[f] = v
            elif kind == "scale-up":
                after[f] = noted(fluents[f] * v)
            else:
                sums[f] = noted(sums.get(f, fluents[f]) + (v if kind == "increase" else -v))
    after.update(sums)
    return (atoms - deleted) | added, after


def validate(task, steps, scale, trace=None):
    """`valid`, or `invalid TICK WHY ..`; `trace(tick, atoms, fluents)` sees each state."""
    atoms = {a for a, t in task.problem.atoms.items() if t}
    fluents = dict(task.problem.fluents)
    events = numbered(steps, scale)
    at_tick = {}
    for e in events:
        at_tick.setdefault(e.tick, []).append(e)
    last = 0
    for tick in sorted(at_tick):
        now = at_tick[tick]
        last = tick
        for e in now:
            if e.part == "start" and lawful(e.step, fluents, scale) is False:
                return f"invalid {tick} duration {e.step_number}"
        for e in now:
            if e.undefined(fluents):
                return f"invalid {tick} undefined {e.number}"
        for e in now:
            if not holds(e.condition, atoms, fluents):
                return f"invalid {tick} condition {e.number}"
        for e in now:
            if e.clash():
                return f"invalid {tick} clash {e.number}"
        pair = first_pair(now)
        if pair is not None:
            return f"invalid {tick} interferes {pair[0].number} {pair[1].number}"
        atoms, fluents = apply(now, atoms, fluents)
        if trace is not None:
            trace(tick, now, atoms, fluents)
        for i, s in enumerate(steps):
            if s.action.durative and s.tick <= tick < s.tick + s.duration:
                if not holds(s.action.invariant, atoms, fluents):
                    return f"invalid {tick} over-all {i}"
    if not holds(task.goal, atoms, fluents):
        return f"invalid {last} goal"
    return "valid"
