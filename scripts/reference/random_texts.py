#!/usr/bin/env python3
"""random_texts.py --seed N --count K --out DIR [--examples DIR]

Domains and problems with words or lists taken out, doubled, swapped or replaced, each
checked with an empty plan.  Where a text is refused the table tells the fault found here;
where a text has several faults another may be named (`compare.py` counts those apart)."""

import random
from pathlib import Path

import random_domains
from cases import Cases, arguments
from check import load_task
from reader import Fault, tokens
from rows import CHARGE, MATCH, MIX, TANK, TOGGLE
from validity import validate

ODD = (
    *"2.5 ?duration when either #t / scale-down object number at end over all start - 3.0 3. .5 -x".split(),
    *"99999999999999999999 1000000000000001 ?x forall exists imply and or not = <= > assign".split(),
    *"increase define domain problem :types :constants :init :goal :parameters :effect".split(),
    *":condition :derived :constraints :metric :requirements preference ( ) () (and) (or) (p)".split(),
    *"1x x! ?1 \x01 \u00e9 ; light unused fuse ada ridge rover camera great park f g".split(),
    *("(= 1 1)", "(at 5 (p))", "(at start (p))", "(over all (p))", "(not (p))", "(when (p) (q))"),
    *("(= ?duration 3)", "(at start (= ?duration 3))", "(at end (<= ?duration 3))", "(= ?x ?x)"),
    *("(preference n (p))", "(scale-down (f) 2)", "(increase (f) (* #t 1))", "(+ 1 2 3)", "(/ 1 2)"),
    *("(assign (f) 2)", "(forall (?x) (p))", "(exists (?x ?x) (p))", "(either a b)", "- (either a b)"),
    *("(:derived (p) (q))", "(:constraints (and))", "(:metric a (b))", "(:length (:serial 3))"),
    *("(:requirements :a :b)", "(:requirements a)", "(:types a - b b - a)", "(:init)", "(= (f) 2)"),
)


def list_from(marks, i):
    """The index after the list that begins at mark i."""
    depth = 0
    for j in range(i, len(marks)):
        depth += {"(": 1, ")": -1}.get(marks[j], 0)
        if depth == 0:
            return j + 1
    return len(marks)


def look(mark):
    """What kind of mark this is: by its first byte, names as one kind."""
    first = mark[0]
    return "a" if first.isalpha() else "0" if first.isdigit() else "<" if first in "<>=" else first


def piece(marks, rng):
    """A word, a list, or now and then a parenthesis."""
    lone = rng.random() < 0.05
    i = rng.randrange(len(marks))
    while not lone and marks[i] == ")":
        i = rng.randrange(len(marks))
    return i, i + 1 if lone or marks[i] != "(" else list_from(marks, i)


def changed(marks, rng):
    marks = list(marks)
    for _ in range(rng.choice((1, 1, 1, 2))):
        i, j = piece(marks, rng)
        what = rng.randrange(12)
        if what >= 7:
            like = [m for m in marks if look(m) == look(marks[i]) and look(m) != "("]
            marks[i] = rng.choice(like or [marks[i]])
        elif what == 0:
            del marks[i:j]
        elif what == 1:
            marks[j:j] = marks[i:j]
        elif what == 2:
            k, m = piece(marks, rng)
            marks[i:j] = marks[k:m]
        elif what == 3:
            k, m = piece(marks, rng)
            marks[i:i] = marks[k:m]
        elif what == 4:
            marks[i:j] = [rng.choice(ODD)]
        elif what == 5:
            marks[i:i] = [rng.choice(ODD)]
        elif j < len(marks):
            k = list_from(marks, j) if marks[j] == "(" else j + 1
            marks[i:k] = marks[j:k] + marks[i:j]
        if not marks:
            return ["x"]
    return marks


def text_of(marks, rng):
    seps = (" ",) * 12 + ("\n", "\t ", "  ", " ; c)(\n", "\v", "\r\n")
    out = []
    for m in marks:
        out += [m.upper() if rng.random() < 0.03 else m, rng.choice(seps)]
    return "".join(out)


def bases(examples, rng):
    out = [(MATCH, 4), (TOGGLE, 4), (TANK, 4), (CHARGE, 4), (MIX, 6)]
    for folder in sorted(Path(examples).iterdir()):
        if (folder / "domain.pddl").is_file():
            texts = tuple((folder / n).read_text() for n in ("domain.pddl", "problem.pddl"))
            out.append((texts, 8))
    for _ in range(40):
        w = random_domains.Writer(rng)
        out.append(((w.domain(), w.problem()), 1))
    return out


def main():
    w = arguments(with_examples=True)
    rng = random.Random(w.seed)
    cases = Cases(w.out)
    of = bases(w.examples, rng)
    marks = [[[t for t, _ in tokens(x.encode())] for x in texts] for texts, _ in of]
    while cases.count < w.count:
        k = rng.choices(range(len(of)), [n for _, n in of])[0]
        texts, which = list(of[k][0]), rng.randrange(2)
        texts[which] = text_of(changed(marks[k][which], rng), rng)
        names = f"domain-{cases.count}.pddl", f"problem-{cases.count}.pddl"
        for name, text in zip(names, texts):
            (cases.folder / name).write_text(text, encoding="utf-8", newline="")
        try:
            task = load_task(*(cases.folder / n for n in names))
            line = validate(task, [], 1)
            cases.record("", *names, 1, 1_000_000, line, 0 if line == "valid" else 1)
        except Fault as f:
            cases.record("", *names, 1, 1_000_000, f.line, f.status)
    cases.close()


if __name__ == "__main__":
    main()
