"""Texts: words and trees, domains, problems, plans.

Conditions, expressions, effects and duration rules are nested tuples:

  condition   ("and", [C]) ("or", [C]) ("not", C) ("imply", C, C)
              ("forall", [(var, types)], C) ("exists", [(var, types)], C)
              ("atom", name, [term]) ("same", term, term) ("cmp", op, X, X)
  expression  ("num", n) ("fluent", name, [term]) ("+", X, X) ("-", X, X)
              ("neg", X) ("*", X, X) ("duration",)
  effect      ("and", [E]) ("forall", vars, E) ("add", name, [term])
              ("delete", name, [term]) (kind, name, [term], X) with kind
              assign, increase, decrease, scale-up
  timed       ("and", [T]) ("forall", vars, T) ("at", "start"|"all"|"end", C or E)
  rule        ("and", [R]) ("cmp", op, X)

A term is an object's name or a variable's (with its "?").
"""

import re
from fractions import Fraction

BLANKS = b" \t\n\v\f\r"
LONGEST = 1_048_576
DEEPEST = 64
NAME = re.compile(r"[a-z][a-z0-9_-]*\Z")
VARIABLE = re.compile(r"\?[a-z][a-z0-9_-]*\Z")
NUMBER = re.compile(r"(-?[0-9]+)(\.0*)?\Z")
LIKE_NUMBER = re.compile(r"(-?[0-9]|\.)")


class Fault(Exception):
    """A refusal: `line` is what the program writes to standard error."""

    def __init__(self, line, status=2):
        super().__init__(line)
        self.line = line
        self.status = status


class TextFault(Exception):
    def __init__(self, words):
        super().__init__(words)
        self.words = words


class SyntaxFault(Exception):
    def __init__(self, number, word, at, what=None):
        super().__init__(word)
        self.words = f"{number} {word} {at}" + (f" {what}" if what else "")


def shape(tree):
    return SyntaxFault(3, "shape", tree.at)


def unknown(tree):
    return SyntaxFault(4, "unknown", tree.at)


def twice(tree):
    return SyntaxFault(5, "twice", tree.at)


def types_fault(tree):
    return SyntaxFault(6, "types", tree.at)


def left_out(tree, what):
    return SyntaxFault(7, "left-out", tree.at, what)


# ---------------------------------------------------------------- trees


class Word:
    def __init__(self, text, at):
        self.text, self.at = text, at


class List:
    def __init__(self, at):
        self.at, self.items = at, []


def tokens(data):
    out, i = [], 0
    while i < len(data):
        b = data[i]
        if b in BLANKS:
            i += 1
        elif b == ord(";"):
            while i < len(data) and data[i] != 10:
                i += 1
        elif b in b"()":
            out.append((chr(b), i))
            i += 1
        elif 0x21 <= b <= 0x7E:
            j = i
            while j < len(data) and 0x21 <= data[j] <= 0x7E and data[j] not in b"();":
                j += 1
            out.append((data[i:j].decode("ascii").lower(), i))
            i = j
        else:
            raise TextFault(f"3 bad-byte {i}")
    return out


def read_tree(data):
    if len(data) > LONGEST:
        raise TextFault("2 too-long")
    marks = tokens(data)
    if not marks:
        raise TextFault("7 empty")
    stack, top = [], None
    for text, at in marks:
        if top is not None and not stack:
            raise TextFault(f"5 extra {at}")
        if text == "(":
            if len(stack) >= DEEPEST:
                raise TextFault(f"6 depth {at}")
            node = List(at)
            if stack:
                stack[-1].items.append(node)
            else:
                top = node
            stack.append(node)
        elif text == ")":
            if not stack:
                raise TextFault(f"5 extra {at}")
            stack.pop()
        elif stack:
            stack[-1].items.append(Word(text, at))
        else:
            top = Word(text, at)
    if stack:
        raise TextFault(f"4 unclosed {stack[0].at}")
    return top


def is_word(tree, text=None):
    return isinstance(tree, Word) and (text is None or tree.text == text)


def is_name(tree):
    return isinstance(tree, Word) and NAME.match(tree.text) is not None


def is_variable(tree):
    return isinstance(tree, Word) and VARIABLE.match(tree.text) is not None


def head(tree):
    """The first word of a list, or None."""
    if isinstance(tree, List) and tree.items and isinstance(tree.items[0], Word):
        return tree.items[0].text
    return None


def whole(text):
    m = NUMBER.match(text)
    if m is None:
        return None
    n = int(m.group(1))
    return n if -(2**63) <= n < 2**63 else None


# ---------------------------------------------------------------- typed lists


def typed_items(items):
    """Pairs (item tree, type tree or None) of a typed list."""
    out, run, i = [], [], 0
    while i < len(items):
        if is_word(items[i], "-"):
            if not run or i + 1 == len(items):
                raise shape(items[i])
            out += [(x, items[i + 1]) for x in run]
            run = []
            i += 2
        else:
            run.append(items[i])
            i += 1
    return out + [(x, None) for x in run]


class Types:
    def __init__(self):
        self.parent = {"object": None}

    def declare(self, section):
        pairs = typed_items(section.items[1:])
        seen = set()
        for item, kind in pairs:
            if not is_name(item):
                raise shape(item)
            if item.text in seen:
                raise twice(item)
            seen.add(item.text)
            if kind is not None and not is_name(kind):
                raise left_out(kind, "either") if head(kind) == "either" else shape(kind)
            over = "object" if kind is None else kind.text
            if item.text == "object":
                if over != "object":
                    raise types_fault(item)
            else:
                self.parent[item.text] = over
        for _, kind in pairs:
            if kind is not None and kind.text not in self.parent:
                self.parent[kind.text] = "object"
        for item, _ in pairs:
            path, at = set(), item.text
            while at is not None:
                if at in path:
                    raise types_fault(item)
                path.add(at)
                at = self.parent[at]

    def below(self, low, high):
        while low is not None:
            if low == high:
                return True
            low = self.parent[low]
        return False

    def fits(self, kinds, wanted):
        """All types of an argument are at or below a type of the parameter."""
        return all(any(self.below(k, w) for w in wanted) for k in kinds)

    def read_kind(self, tree, either):
        """The types that a type tree names; None stands for `object`."""
        if tree is None:
            return ("object",)
        if is_name(tree):
            if tree.text not in self.parent:
                raise unknown(tree)
            return (tree.text,)
        if head(tree) == "either":
            if not either:
                raise left_out(tree, "either")
            if len(tree.items) < 2:
                raise shape(tree)
            return tuple(self.read_kind(t, False)[0] for t in tree.items[1:])
        raise shape(tree)

    def read_vars(self, items):
        out, seen = [], set()
        for item, kind in typed_items(items):
            if not is_variable(item) or item.text == "?duration":
                raise shape(item)
            if item.text in seen:
                raise twice(item)
            seen.add(item.text)
            out.append((item.text, self.read_kind(kind, True)))
        return out

    def read_objects(self, section, known):
        """Objects of a `:constants` or `:objects` section, in order."""
        out, seen = [], set(known)
        for item, kind in typed_items(section.items[1:]):
            if not is_name(item):
                raise shape(item)
            if item.text in seen:
                raise twice(item)
            seen.add(item.text)
            out.append((item.text, self.read_kind(kind, False)[0]))
        return out


# ---------------------------------------------------------------- formulas

COMPARISONS = ("<", "<=", "=", ">=", ">")


class Formulas:
    """Reads conditions, expressions and effects for given names."""

    def __init__(self, types, objects, predicates, functions):
        self.types = types
        self.objects = dict(objects)
        self.predicates = predicates
        self.functions = functions

    def term(self, tree, scope):
        if is_variable(tree):
            if tree.text not in scope:
                raise unknown(tree)
            return tree.text, scope[tree.text]
        if is_name(tree):
            if tree.text not in self.objects:
                raise unknown(tree)
            return tree.text, (self.objects[tree.text],)
        raise shape(tree)

    def terms(self, tree, wanted, scope):
        args = tree.items[1:]
        read = [self.term(a, scope) for a in args]
        if len(read) != len(wanted):
            raise types_fault(tree)
        for a, (_, kinds), (_, over) in zip(args, read, wanted):
            if not self.types.fits(kinds, over):
                raise types_fault(a)
        return [t for t, _ in read]

    def applied(self, tree, declared, scope):
        """The name, one of those declared, and the terms of `(NAME TERM ..)`."""
        if not isinstance(tree, List) or not tree.items or not is_name(tree.items[0]):
            raise shape(tree)
        name = tree.items[0].text
        if name not in declared:
            raise unknown(tree.items[0])
        return name, self.terms(tree, declared[name], scope)

    def atom(self, tree, scope):
        return self.applied(tree, self.predicates, scope)

    def fluent(self, tree, scope):
        return self.applied(tree, self.functions, scope)

    def variables(self, tree, scope):
        if not isinstance(tree, List):
            raise shape(tree)
        read = self.types.read_vars(tree.items)
        return read, {**scope, **dict(read)}

    def number(self, tree):
        n = whole(tree.text)
        if n is None:
            raise left_out(tree, "number") if LIKE_NUMBER.match(tree.text) else shape(tree)
        return n

    def expression(self, tree, scope, place):
        """`place` says where: "condition", "rule", "effect" or "timed"."""
        if isinstance(tree, Word):
            if tree.text == "?duration":
                if place == "timed":
                    return ("duration",)
                if place == "condition":
                    raise left_out(tree, "duration-in-condition")
                raise shape(tree)
            if tree.text == "#t":
                raise left_out(tree, "continuous")
            return ("num", self.number(tree))
        first = head(tree)
        if first in ("+", "-", "*"):
            if len(tree.items) > 3:
                raise left_out(tree, "operands")
            parts = tree.items[1:]
            if len(parts) == 1 and first == "-":
                return ("neg", self.expression(parts[0], scope, place))
            if len(parts) != 2:
                raise shape(tree)
            return (first, *(self.expression(p, scope, place) for p in parts))
        if first == "/":
            raise left_out(tree, "division")
        return ("fluent", *self.fluent(tree, scope))

    def is_term(self, tree):
        return is_name(tree) or (is_variable(tree) and tree.text != "?duration")

    def condition(self, tree, scope):
        if not isinstance(tree, List):
            raise shape(tree)
        if not tree.items:
            return ("and", [])
        first, rest = head(tree), tree.items[1:]
        if first is None:
            raise shape(tree)
        if first in ("and", "or"):
            return (first, [self.condition(t, scope) for t in rest])
        if first == "not":
            if len(rest) != 1:
                raise shape(tree)
            return ("not", self.condition(rest[0], scope))
        if first == "imply":
            if len(rest) != 2:
                raise shape(tree)
            return ("imply", self.condition(rest[0], scope), self.condition(rest[1], scope))
        if first in ("forall", "exists"):
            if len(rest) != 2:
                raise shape(tree)
            read, inner = self.variables(rest[0], scope)
            return (first, read, self.condition(rest[1], inner))
        if first == "preference":
            raise left_out(tree, "preference")
        if first in COMPARISONS:
            if len(rest) != 2:
                raise left_out(tree, "operands") if len(rest) > 2 else shape(tree)
            if first == "=":
                left, right = map(self.is_term, rest)
                if left and right:
                    return ("same", *(self.term(t, scope)[0] for t in rest))
                if left or right:
                    raise types_fault(tree)
            return ("cmp", first, *(self.expression(t, scope, "condition") for t in rest))
        return ("atom", *self.atom(tree, scope))

    def effect(self, tree, scope, place):
        if not isinstance(tree, List):
            raise shape(tree)
        if not tree.items:
            return ("and", [])
        first, rest = head(tree), tree.items[1:]
        if first is None:
            raise shape(tree)
        if first == "and":
            return ("and", [self.effect(t, scope, place) for t in rest])
        if first == "forall":
            if len(rest) != 2:
                raise shape(tree)
            read, inner = self.variables(rest[0], scope)
            return ("forall", read, self.effect(rest[1], inner, place))
        if first == "not":
            if len(rest) != 1:
                raise shape(tree)
            return ("delete", *self.atom(rest[0], scope))
        if first == "when":
            raise left_out(tree, "when")
        if first == "scale-down":
            raise left_out(tree, "scale-down")
        if first in ("assign", "increase", "decrease", "scale-up"):
            if len(rest) != 2:
                raise shape(tree)
            name, args = self.fluent(rest[0], scope)
            return (first, name, args, self.expression(rest[1], scope, place))
        return ("add", *self.atom(tree, scope))

    def timed(self, tree, scope, is_effect):
        if not isinstance(tree, List):
            raise shape(tree)
        if not tree.items:
            return ("and", [])
        first, rest = head(tree), tree.items[1:]
        if first == "and":
            return ("and", [self.timed(t, scope, is_effect) for t in rest])
        if first == "forall":
            if len(rest) != 2:
                raise shape(tree)
            read, inner = self.variables(rest[0], scope)
            return ("forall", read, self.timed(rest[1], inner, is_effect))
        if first in ("at", "over") and len(rest) == 2 and isinstance(rest[0], Word):
            mark = rest[0].text
            if (first, mark) in (("at", "start"), ("at", "end")) or (
                (first, mark) == ("over", "all") and not is_effect
            ):
                inside = (
                    self.effect(rest[1], scope, "timed")
                    if is_effect
                    else self.condition(rest[1], scope)
                )
                return ("at", mark, inside)
        if first == "preference":
            raise left_out(tree, "preference")
        if is_effect and first == "when":
            raise left_out(tree, "when")
        if is_effect and first in ("increase", "decrease") and mentions_hash_t(tree):
            raise left_out(tree, "continuous")
        raise shape(tree)

    def rule(self, tree, scope):
        if not isinstance(tree, List):
            raise shape(tree)
        if not tree.items:
            return ("and", [])
        first, rest = head(tree), tree.items[1:]
        if first == "and":
            return ("and", [self.rule(t, scope) for t in rest])
        if first == "at" and len(rest) == 2 and is_word(rest[0], "start"):
            return self.rule(rest[1], scope)
        if first == "at" and len(rest) == 2 and is_word(rest[0], "end"):
            raise left_out(tree, "at-end-duration")
        if first in ("=", "<=", ">=") and len(rest) == 2 and is_word(rest[0], "?duration"):
            return ("cmp", first, self.expression(rest[1], scope, "rule"))
        raise shape(tree)


def mentions_hash_t(tree):
    if isinstance(tree, Word):
        return tree.text == "#t"
    return any(mentions_hash_t(t) for t in tree.items)


# ---------------------------------------------------------------- domain


class Action:
    def __init__(self, name, durative, params, rule, condition, effect):
        self.name, self.durative, self.params = name, durative, params
        self.rule, self.condition, self.effect = rule, condition, effect


class Domain:
    def __init__(self):
        self.name = None
        self.types = Types()
        self.constants = []
        self.predicates = {}
        self.functions = {}
        self.actions = []


def read_define(tree, what):
    if head(tree) != "define" or len(tree.items) < 2:
        raise shape(tree)
    title = tree.items[1]
    if head(title) != what or len(title.items) != 2 or not is_name(title.items[1]):
        raise shape(title)
    return title.items[1], tree.items[2:]


def read_requirements(section):
    for w in section.items[1:]:
        if not isinstance(w, Word) or not w.text.startswith(":"):
            raise shape(w)


def declared(items, out, read):
    for item in items:
        if not isinstance(item, List) or not item.items or not is_name(item.items[0]):
            raise shape(item)
        name = item.items[0].text
        if name in out:
            raise twice(item.items[0])
        out[name] = read(item.items[1:])


def domain_of(tree):
    d = Domain()
    name, sections = read_define(tree, "domain")
    d.name = name.text
    once, actions = {}, []
    for s in sections:
        key = head(s)
        if key in (":requirements", ":types", ":constants", ":predicates", ":functions"):
            if key in once:
                raise twice(s)
            once[key] = s
        elif key in (":action", ":durative-action"):
            actions.append(s)
        elif key == ":derived":
            raise left_out(s, "derived")
        elif key == ":constraints":
            raise left_out(s, "constraint")
        else:
            raise shape(s)
    if ":requirements" in once:
        read_requirements(once[":requirements"])
    if ":types" in once:
        d.types.declare(once[":types"])
    if ":constants" in once:
        d.constants = d.types.read_objects(once[":constants"], ())
    if ":predicates" in once:
        declared(once[":predicates"].items[1:], d.predicates, d.types.read_vars)
    if ":functions" in once:
        pairs = typed_items(once[":functions"].items[1:])
        for _, kind in pairs:
            if kind is not None and not is_word(kind, "number"):
                raise left_out(kind, "object-fluent")
        declared([item for item, _ in pairs], d.functions, d.types.read_vars)
    formulas = Formulas(d.types, d.constants, d.predicates, d.functions)
    names = set()
    for s in actions:
        d.actions.append(action_of(s, formulas, names))
    return d


def action_of(section, formulas, names):
    durative = head(section) == ":durative-action"
    if len(section.items) < 2 or not is_name(section.items[1]):
        raise shape(section)
    name = section.items[1]
    if name.text in names:
        raise twice(name)
    names.add(name.text)
    allowed = (
        (":parameters", ":duration", ":condition", ":effect")
        if durative
        else (":parameters", ":precondition", ":effect")
    )
    fields, rest = {}, section.items[2:]
    for i in range(0, len(rest), 2):
        if not isinstance(rest[i], Word) or rest[i].text not in allowed or i + 1 == len(rest):
            raise shape(rest[i])
        if rest[i].text in fields:
            raise twice(rest[i])
        fields[rest[i].text] = rest[i + 1]
    params, scope = [], {}
    if ":parameters" in fields:
        params, scope = formulas.variables(fields[":parameters"], {})
    empty = ("and", [])

    def field(key, read, *more):
        return read(fields[key], scope, *more) if key in fields else empty

    if durative:
        if ":duration" not in fields:
            raise shape(section)
        return Action(
            name.text,
            True,
            params,
            formulas.rule(fields[":duration"], scope),
            field(":condition", formulas.timed, False),
            field(":effect", formulas.timed, True),
        )
    return Action(
        name.text,
        False,
        params,
        empty,
        field(":precondition", formulas.condition),
        field(":effect", formulas.effect, "effect"),
    )


# ---------------------------------------------------------------- problem


class Problem:
    def __init__(self):
        self.name = None
        self.objects = []  # (name, type), constants first
        self.atoms = {}  # (name, args) -> bool
        self.fluents = {}  # (name, args) -> int
        self.goal = ("and", [])


def problem_of(tree, d):
    p = Problem()
    name, sections = read_define(tree, "problem")
    p.name = name.text
    if not sections or head(sections[0]) != ":domain" or len(sections[0].items) != 2:
        raise shape(sections[0] if sections else tree)
    of = sections[0].items[1]
    if not is_name(of):
        raise shape(of)
    if of.text != d.name:
        raise unknown(of)
    once = {}
    for s in sections[1:]:
        key = head(s)
        if key in (":requirements", ":objects", ":init", ":goal", ":metric", ":length"):
            if key in once:
                raise twice(s)
            once[key] = s
        elif key == ":constraints":
            raise left_out(s, "constraint")
        else:
            raise shape(s)
    if ":requirements" in once:
        read_requirements(once[":requirements"])
    p.objects = list(d.constants)
    if ":objects" in once:
        p.objects += d.types.read_objects(once[":objects"], [n for n, _ in p.objects])
    formulas = Formulas(d.types, p.objects, d.predicates, d.functions)
    if ":init" in once:
        for fact in once[":init"].items[1:]:
            read_fact(fact, p, formulas)
    if ":goal" not in once or len(once[":goal"].items) != 2:
        raise shape(once.get(":goal", tree))
    p.goal = formulas.condition(once[":goal"].items[1], {})
    return p


def read_fact(fact, p, formulas):
    first = head(fact)
    if first == "=":
        if len(fact.items) != 3:
            raise shape(fact)
        name, args = formulas.fluent(fact.items[1], {})
        if not isinstance(fact.items[2], Word):
            raise shape(fact.items[2])
        n = formulas.number(fact.items[2])
        key = (name, tuple(args))
        if key in p.fluents:
            raise twice(fact)
        p.fluents[key] = n
        return
    if first == "at" and len(fact.items) > 1 and isinstance(fact.items[1], Word):
        if LIKE_NUMBER.match(fact.items[1].text):
            raise left_out(fact, "timed-literal")
    truth, atom = True, fact
    if first == "not":
        if len(fact.items) != 2:
            raise shape(fact)
        truth, atom = False, fact.items[1]
    name, args = formulas.atom(atom, {})
    key = (name, tuple(args))
    if p.atoms.setdefault(key, truth) != truth:
        raise twice(fact)


def read_domain(data):
    return of_part("domain", lambda: domain_of(listed(read_tree(data))))


def read_problem(data, d):
    return of_part("problem", lambda: problem_of(listed(read_tree(data)), d))


def listed(tree):
    if isinstance(tree, Word):
        raise shape(tree)
    return tree


def of_part(part, read):
    try:
        return read()
    except TextFault as f:
        raise Fault(f"fault {part} 2 text {f.words}") from None
    except SyntaxFault as f:
        raise Fault(f"fault {part} {f.words}") from None


# ---------------------------------------------------------------- plan

B = r"[ \t\v\f\r]"
PLAN_LINE = re.compile(
    rf"{B}*([0-9]+(?:\.[0-9]+)?){B}*:{B}*"
    rf"\({B}*([a-z][a-z0-9_-]*(?:{B}+[a-z][a-z0-9_-]*)*){B}*\){B}*"
    rf"(?:\[{B}*([0-9]+(?:\.[0-9]+)?){B}*\]{B}*)?\Z",
    re.IGNORECASE | re.ASCII,
)


class Step:
    def __init__(self, tick, action, duration):
        self.tick, self.action, self.duration = tick, action, duration


def ticks_of(text, scale):
    t = Fraction(text) * scale
    return int(t) if t.denominator == 1 and t < 2**32 else None


def read_plan(data, task, scale, horizon):
    """The steps; `task.find(name, args)` is a ground action or None."""
    steps, count = [], 0
    for n, raw in enumerate(data.decode("latin-1").split("\n"), 1):
        line = raw.split(";", 1)[0]
        if not line.strip(" \t\v\f\r"):
            continue
        count += 1
        if count > 512:
            raise Fault("fault plan 5 too-many")
        m = PLAN_LINE.match(line)
        if m is None:
            raise Fault(f"fault plan 2 line {n}")
        words = m.group(2).lower().split()
        action = task.find(words[0], tuple(words[1:]))
        if action is None:
            raise Fault(f"fault plan 3 no-action {n}")
        if action.durative and m.group(3) is None:
            raise Fault(f"fault plan 6 no-duration {n}")
        tick = ticks_of(m.group(1), scale)
        duration = ticks_of(m.group(3), scale) if action.durative else 0
        if tick is None or duration is None:
            raise Fault(f"fault plan 4 not-ticks {n}")
        if tick + duration > horizon:
            raise Fault(f"fault plan 7 horizon {n}")
        steps.append(Step(tick, action, duration))
    return steps
