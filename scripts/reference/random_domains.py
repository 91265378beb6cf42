#!/usr/bin/env python3
"""random_domains.py --seed N --count K --out DIR [--wide]

Small domains and problems of every form of condition, expression, effect and duration
rule, with dense plans: few atoms and fluents, ticks close together, so that every kind
of verdict comes up often.  With --wide each action has 16 to 20 parameters: 10^9
bindings and more.  The same seed gives the same folder."""

import random

from cases import Cases, arguments
from reader import Fault, read_domain, read_problem
from task import Task

TYPES = {"a": "object", "b": "a", "c": "a", "d": "object"}
OBJECTS = {"k": "b", "x1": "b", "x2": "c", "y": "a", "z": "d"}
CONSTANTS = ("k",)
PREDICATES = {"p": (), "q": (), "on": ("a",), "in": ("b",), "rel": ("a", "object")}
FUNCTIONS = {"f": (), "g": (), "h": ("a",), "at": ("b",)}
KINDS = ("a", "b", "c", "d", "object", "(either b c)", "(either c d)")
BELOW = {"a": "abc", "b": "b", "c": "c", "d": "d", "object": ("object", *"abcd")}


def types_of(kind):
    return tuple(kind.strip("()").split()[1:]) if kind.startswith("(") else (kind,)


class Writer:
    """Writes random well-typed text of one domain."""

    def __init__(self, rng, wide=False):
        self.rng, self.wide = rng, wide

    def pick(self, *of):
        return self.rng.choice(of)

    def term(self, wanted, scope, problem=False):
        """A variable or an object that fits the wanted type, or None."""
        fits = [v for v, kind in scope.items() if all(t in BELOW[wanted] for t in types_of(kind))]
        known = OBJECTS if problem else CONSTANTS
        fits += fits  # variables rather than constants
        fits += [o for o in known if OBJECTS[o] in BELOW[wanted]]
        return self.rng.choice(fits) if fits else None

    def applied(self, table, scope, problem=False):
        while True:
            name = self.rng.choice(sorted(table))
            args = [self.term(t, scope, problem) for t in table[name]]
            if None not in args:
                return "(" + " ".join((name, *args)) + ")"

    def expression(self, depth, scope, duration=False, problem=False):
        r = self.rng.random()
        if depth == 0 or r < 0.45:
            if duration and self.rng.random() < 0.5:
                return "?duration"
            if self.rng.random() < 0.5:
                return self.pick("0", "1", "2", "3", "-1", "2.0", "4.", "-0")
            return self.applied(FUNCTIONS, scope, problem)
        sub = lambda: self.expression(depth - 1, scope, duration, problem)
        op = self.pick("+", "-", "*", "neg")
        return f"(- {sub()})" if op == "neg" else f"({op} {sub()} {sub()})"

    def variables(self, scope):
        inner, parts = dict(scope), []
        for v in self.rng.sample(("?x", "?y", "?u"), self.pick(1, 1, 2)):
            kind = self.pick(*KINDS)
            inner[v] = kind
            parts.append(f"{v} - {kind}")
        return "(" + " ".join(parts) + ")", inner

    def condition(self, depth, scope, problem=False):
        r = self.rng.random()
        sub = lambda s=scope: self.condition(depth - 1, s, problem)
        if depth == 0 or r < 0.3:
            r = self.rng.random()
            if r < 0.5:
                return self.applied(PREDICATES, scope, problem)
            if r < 0.6:
                a, b = (self.term("object", scope, problem) for _ in "ab")
                return f"(= {a} {b})"
            if r < 0.65:
                return self.pick("()", "(and)", "(or)")
            op = self.pick("<", "<=", "=", ">=", ">")
            return f"({op} {self.expression(1, scope, problem=problem)} {self.expression(1, scope, problem=problem)})"
        kind = self.pick("and", "or", "or", "not", "not", "imply", "forall", "exists")
        if kind in ("and", "or"):
            return f"({kind} {' '.join(sub() for _ in range(self.pick(1, 2, 2, 3)))})"
        if kind == "not":
            return f"(not {sub()})"
        if kind == "imply":
            return f"(imply {sub()} {sub()})"
        text, inner = self.variables(scope)
        return f"({kind} {text} {sub(inner)})"

    def effect(self, depth, scope, duration):
        r = self.rng.random()
        if depth == 0 or r < 0.5:
            r = self.rng.random()
            if r < 0.3:
                return self.applied(PREDICATES, scope)
            if r < 0.55:
                return f"(not {self.applied(PREDICATES, scope)})"
            if r < 0.65:  # both deleted and added: true afterwards
                atom = self.applied(PREDICATES, scope)
                return f"(and {atom} (not {atom}))"
            kind = self.pick("assign", "increase", "increase", "decrease", "decrease", "scale-up")
            return f"({kind} {self.applied(FUNCTIONS, scope)} {self.expression(1, scope, duration)})"
        if r < 0.85:
            n = self.pick(0, 1, 2, 2, 3)
            return "(and" + "".join(" " + self.effect(depth - 1, scope, duration) for _ in range(n)) + ")"
        text, inner = self.variables(scope)
        return f"(forall {text} {self.effect(depth - 1, inner, duration)})"

    def timed(self, depth, scope, marks, inside):
        r = self.rng.random()
        if depth > 0 and r < 0.3:
            n = self.pick(1, 2, 2, 3)
            return "(and" + "".join(" " + self.timed(depth - 1, scope, marks, inside) for _ in range(n)) + ")"
        if depth > 0 and r < 0.42:
            text, inner = self.variables(scope)
            return f"(forall {text} {self.timed(depth - 1, inner, marks, inside)})"
        return f"({self.rng.choice(marks)} {inside(scope)})"

    def rule(self, scope):
        r = self.rng.random()
        if r < 0.35:
            return f"(>= ?duration {self.pick('1', '0', '1')})"
        if r < 0.5:
            return f"(= ?duration {self.pick('1', '2', '3')})"
        if r < 0.6:
            return self.pick("()", "(and)")
        if r < 0.8:
            return f"(and (at start (>= ?duration 1)) (<= ?duration {self.expression(1, scope)}))"
        return f"({self.pick('<=', '>=', '=')} ?duration {self.expression(1, scope)})"

    def action(self, number):
        scope, params = {}, []
        for v in ("?a", "?b")[: self.pick(0, 1, 1, 2)]:
            scope[v] = self.pick(*KINDS[:5], *KINDS)
            params.append(f"{v} - {scope[v]}")
        for i in range(self.pick(16, 18) if self.wide else 0):
            scope[f"?w{i}"] = self.pick("a", "object")
            params.append(f"?w{i} - {scope[f'?w{i}']}")
        text = f":parameters ({' '.join(params)})"
        if self.rng.random() < 0.45:
            fields = [text]
            if self.rng.random() < 0.7:
                fields.append(f":precondition {self.condition(self.pick(0, 1, 2), scope)}")
            fields.append(f":effect {self.effect(2, scope, False)}")
            kind = ":action"
        else:
            fields = [text, f":duration {self.rule(scope)}"]
            if self.rng.random() < 0.8:
                inside = lambda s: self.condition(self.pick(0, 0, 1, 2), s)
                marks = ("at start", "over all", "over all", "at end")
                fields.append(f":condition {self.timed(self.pick(0, 1, 2), scope, marks, inside)}")
            inside = lambda s: self.effect(self.pick(0, 1, 2), s, True)
            fields.append(f":effect {self.timed(2, scope, ('at start', 'at end'), inside)}")
            kind = ":durative-action"
        self.rng.shuffle(fields)
        return f" ({kind} act{number}\n  " + "\n  ".join(fields) + ")"

    def domain(self):
        types = " ".join(f"{t} - {p}" for t, p in TYPES.items())
        args = lambda kinds: "".join(f" ?v{i} - {k}" for i, k in enumerate(kinds))
        table = lambda of: " ".join(f"({n}{args(ks)})" for n, ks in of.items())
        sections = [
            f" (:types {types})",
            f" (:constants {' '.join(f'{c} - {OBJECTS[c]}' for c in CONSTANTS)})",
            f" (:predicates {table(PREDICATES)})",
            f" (:functions {table(FUNCTIONS)})",
            *(self.action(i) for i in range(self.pick(3, 4, 5, 6))),
        ]
        return "(define (domain fuzz)\n" + "\n".join(sections) + ")\n"

    def ground(self, table):
        out = [()]
        for name in sorted(table):
            for args in self.products(table[name]):
                out.append((name, *args))
        return out[1:]

    def products(self, kinds):
        if not kinds:
            return [()]
        head = [o for o in OBJECTS if OBJECTS[o] in BELOW[kinds[0]]]
        return [(o, *rest) for o in head for rest in self.products(kinds[1:])]

    def problem(self):
        facts = []
        for atom in self.ground(PREDICATES):
            r = self.rng.random()
            if r < 0.5:
                facts.append("(" + " ".join(atom) + ")")
            elif r < 0.55:
                facts.append("(not (" + " ".join(atom) + "))")
        known = self.pick(0.8, 0.95, 1.0)
        for fluent in self.ground(FUNCTIONS):
            if self.rng.random() < known:
                facts.append(f"(= ({' '.join(fluent)}) {self.pick('0', '1', '2', '3', '-2')})")
        self.rng.shuffle(facts)
        objects = " ".join(f"{o} - {t}" for o, t in OBJECTS.items() if o not in CONSTANTS)
        goal = "()" if self.rng.random() < 0.3 else self.condition(self.pick(0, 1, 2), {}, True)
        return (
            f"(define (problem p) (:domain fuzz)\n (:objects {objects})\n"
            f" (:init {' '.join(facts)})\n (:goal {goal}))\n"
        )


def drawn(task, rng):
    """Some actions of a task."""
    if not task.named:
        return rng.sample(task.actions, min(len(task.actions), 6))
    schemas = [rng.choice(task.domain.actions) for _ in range(6)]
    return [
        task.find(a.name, tuple(rng.choice(task.of(kinds)) for _, kinds in a.params))
        for a in schemas
    ]


def plan(task, scale, rng):
    """A dense plan; steps that can't begin in the initial state are mostly left out."""
    lines, span = [], rng.choice((1, 2, 3, 5, 8))
    actions = drawn(task, rng)
    for _ in range(rng.choice((1, 2, 2, 3, 3, 4, 5, 6))):
        a = rng.choice(actions)
        tick = rng.randrange(span) * rng.choice((1, scale))
        text = f"{tick // scale}.{tick % scale}" if scale == 10 else str(tick)
        text += f": {a.text()}"
        if a.durative:
            d = rng.choice((1, 1, 2, 2, 3, 3, 4, 0) if rng.random() < 0.3 else (1, 2, 3))
            d *= scale if scale == 1 or rng.random() < 0.9 else 1
            text += f" [{d // scale}.{d % scale}]" if scale == 10 else f" [{d}]"
        lines.append(text)
    return "\n".join(lines) + "\n"


def main():
    w = arguments(with_wide=True)
    rng = random.Random(w.seed)
    cases, number = Cases(w.out), 0
    while cases.count < w.count:
        writer = Writer(rng, w.wide)
        domain, problem = writer.domain(), writer.problem()
        d = read_domain(domain.encode())
        try:
            task = Task(d, read_problem(problem.encode(), d), named=w.wide)
        except Fault as f:
            raise SystemExit(f"{f.line}\n{domain}{problem}") from None
        if not (w.wide or task.actions):
            continue
        names = f"domain-{number}.pddl", f"problem-{number}.pddl"
        number += 1
        (cases.folder / names[0]).write_text(domain)
        (cases.folder / names[1]).write_text(problem)
        scale = rng.choice((1, 1, 10))
        # Faults of single steps would crowd out the others.
        thin = lambda line: line.split()[2:3] in (["condition"], ["duration"]) and rng.random() < 0.85
        for _ in range(24):
            cases.add(task, plan(task, scale, rng), *names, scale, 1_000_000, thin)
    cases.close()


if __name__ == "__main__":
    main()
