"""The task: ground actions, with `forall` and `exists` written out."""

from itertools import product
from math import prod

from reader import Fault

MOST = 65_535
GREATEST = 10**15


class GroundAction:
    """`conditions` and `effects` by part: "start" and "end", or "only"."""

    def __init__(self, name, args, durative):
        self.name, self.args, self.durative = name, args, durative
        self.conditions, self.effects = {}, {}
        self.invariant = ("and", [])
        self.rule = []  # (op, expression)

    def text(self):
        return "(" + " ".join((self.name, *self.args)) + ")"


class Task:
    """The task of all ground actions, or, where `named`, of those that `find` is asked for."""

    def __init__(self, domain, problem, named=False):
        self.domain, self.problem, self.named = domain, problem, named
        self.objects = problem.objects
        if len(self.objects) > MOST:
            raise Fault("fault ground 2 too-many objects")
        if any(abs(n) > GREATEST for n in numbers(domain, problem)):
            raise Fault("fault ground 3 range")
        self.by_kind = {}
        self.actions, self.index = [], {}
        self.schemas = {a.name: a for a in domain.actions}
        self.goal = self.condition(problem.goal, {})
        if not named:
            self.make_all()
        self.count_mentioned()

    def make_all(self):
        choices = [(a, [self.of(kinds) for _, kinds in a.params]) for a in self.domain.actions]
        if sum(prod(map(len, ranges)) for _, ranges in choices) > MOST:
            raise Fault("fault ground 2 too-many actions")
        for a, ranges in choices:
            for args in product(*ranges):
                self.make(a, args)

    def make(self, a, args):
        self.actions.append(self.ground_action(a, args))
        self.index[a.name, args] = self.actions[-1]

    def of(self, kinds):
        if kinds not in self.by_kind:
            below = self.domain.types.below
            self.by_kind[kinds] = [n for n, t in self.objects if any(below(t, k) for k in kinds)]
        return self.by_kind[kinds]

    def find(self, name, args):
        if self.named and (name, args) not in self.index and self.is_binding(name, args):
            self.make(self.schemas[name], args)
        return self.index.get((name, args))

    def is_binding(self, name, args):
        params = self.schemas[name].params if name in self.schemas else None
        return params is not None and len(params) == len(args) and all(
            arg in self.of(kinds) for arg, (_, kinds) in zip(args, params)
        )

    def bindings(self, variables, env):
        names = [v for v, _ in variables]
        for objects in product(*(self.of(kinds) for _, kinds in variables)):
            yield {**env, **dict(zip(names, objects))}

    def ground_action(self, a, args):
        g = GroundAction(a.name, args, a.durative)
        env = dict(zip((v for v, _ in a.params), args))
        if not a.durative:
            g.conditions["only"] = self.condition(a.condition, env)
            g.effects["only"] = self.effects(a.effect, env)
            return g
        parts = {"start": [], "all": [], "end": []}
        for moment, condition, inner in self.timed(a.condition, env):
            parts[moment].append(self.condition(condition, inner))
        g.conditions = {p: ("and", parts[p]) for p in ("start", "end")}
        g.invariant = ("and", parts["all"])
        g.effects = {"start": [], "end": []}
        for moment, effect, inner in self.timed(a.effect, env):
            g.effects[moment] += self.effects(effect, inner)
        self.rule(a.rule, env, g.rule)
        return g

    def timed(self, t, env):
        """What stands at a moment, with the moment and what variables stand for there."""
        if t[0] == "and":
            for x in t[1]:
                yield from self.timed(x, env)
        elif t[0] == "forall":
            for inner in self.bindings(t[1], env):
                yield from self.timed(t[2], inner)
        else:
            yield t[1], t[2], env

    def rule(self, r, env, out):
        if r[0] == "and":
            for x in r[1]:
                self.rule(x, env, out)
        else:
            out.append((r[1], self.expression(r[2], env)))

    def args(self, terms, env):
        return tuple(env[t] if t[0] == "?" else t for t in terms)

    def condition(self, c, env):
        kind = c[0]
        if kind in ("and", "or"):
            return (kind, [self.condition(x, env) for x in c[1]])
        if kind == "not":
            return ("not", self.condition(c[1], env))
        if kind == "imply":
            return ("imply", self.condition(c[1], env), self.condition(c[2], env))
        if kind in ("forall", "exists"):
            written = [self.condition(c[2], inner) for inner in self.bindings(c[1], env)]
            return ("and" if kind == "forall" else "or", written)
        if kind == "atom":
            return ("atom", (c[1], self.args(c[2], env)))
        if kind == "same":
            a, b = self.args(c[1:], env)
            return ("truth", a == b)
        return ("cmp", c[1], self.expression(c[2], env), self.expression(c[3], env))

    def expression(self, x, env):
        if x[0] in ("num", "duration"):
            return x
        if x[0] == "fluent":
            return ("fluent", (x[1], self.args(x[2], env)))
        return (x[0], *(self.expression(y, env) for y in x[1:]))

    def effects(self, e, env):
        """A list of (kind, atom) and (kind, fluent, expression)."""
        if e[0] == "and":
            return [y for x in e[1] for y in self.effects(x, env)]
        if e[0] == "forall":
            return [y for inner in self.bindings(e[1], env) for y in self.effects(e[2], inner)]
        key = (e[1], self.args(e[2], env))
        if e[0] in ("add", "delete"):
            return [(e[0], key)]
        return [(e[0], key, self.expression(e[3], env))]

    def count_mentioned(self):
        atoms, fluents = set(self.problem.atoms), set(self.problem.fluents)
        mention_condition(self.goal, atoms, fluents)
        for a in self.actions:
            for c in (*a.conditions.values(), a.invariant):
                mention_condition(c, atoms, fluents)
            for e in a.effects.values():
                for w in e:
                    if w[0] in ("add", "delete"):
                        atoms.add(w[1])
                    else:
                        fluents.add(w[1])
                        mention_expression(w[2], fluents)
            for _, x in a.rule:
                mention_expression(x, fluents)
        self.atoms, self.fluents = atoms, fluents
        if len(atoms) > MOST:
            raise Fault("fault ground 2 too-many atoms")
        if len(fluents) > MOST:
            raise Fault("fault ground 2 too-many fluents")


def mention_condition(c, atoms, fluents):
    """The atoms and fluents that a condition mentions."""
    kind = c[0]
    if kind in ("and", "or"):
        for x in c[1]:
            mention_condition(x, atoms, fluents)
    elif kind in ("not", "imply"):
        for x in c[1:]:
            mention_condition(x, atoms, fluents)
    elif kind == "atom":
        atoms.add(c[1])
    elif kind == "cmp":
        mention_expression(c[2], fluents)
        mention_expression(c[3], fluents)


def mention_expression(x, fluents):
    if x[0] == "fluent":
        fluents.add(x[1])
    elif x[0] not in ("num", "duration"):
        for y in x[1:]:
            mention_expression(y, fluents)


def numbers(domain, problem):
    """Every number that stands in a domain or problem."""

    def walk(t):
        if isinstance(t, tuple) and len(t) == 2 and t[0] == "num":
            yield t[1]
        elif isinstance(t, (tuple, list)):
            for x in t:
                yield from walk(x)

    yield from problem.fluents.values()
    yield from walk(problem.goal)
    for a in domain.actions:
        for part in (a.rule, a.condition, a.effect):
            yield from walk(part)
