#!/usr/bin/env python3
"""random_searches.py --seed N --count K --out DIR

Small domains and problems with a scale, a horizon and a budget each, and the answer of
`search.py` to them.  `searches.tsv` has one line per case: domain, problem, scale, horizon,
budget, exit status, answer (as a Python string).  Cases in which a number passes 10^15 are
left out.  The same seed gives the same folder."""

import collections
import random
from pathlib import Path

import validity
from cases import arguments
from random_domains import Writer
from reader import read_domain, read_problem
from search import answer
from task import Task

BUDGETS = (0, 1, 2, 5, 20, 60)


class Goals(Writer):
    """Goals with several conjuncts come more often."""

    def problem(self):
        text = super().problem()
        if self.rng.random() < 0.4:
            return text
        parts = [self.condition(0, {}, True) for _ in range(self.pick(1, 2, 3))]
        return text[: text.index("(:goal")] + f"(:goal (and {' '.join(parts)})))\n"


def main():
    w = arguments()
    rng = random.Random(w.seed)
    folder = Path(w.out)
    folder.mkdir(parents=True, exist_ok=True)
    kinds, count = collections.Counter(), 0
    with open(folder / "searches.tsv", "w") as table:
        while count < w.count:
            writer = Goals(rng)
            domain, problem = writer.domain(), writer.problem()
            d = read_domain(domain.encode())
            task = Task(d, read_problem(problem.encode(), d))
            scale = rng.choice((1, 1, 10))
            horizon, budget = rng.choice((3, 20, 1_000_000)), rng.choice(BUDGETS)
            validity.passed_limit[0] = False
            text, status = answer(task, scale, horizon, budget)
            if validity.passed_limit[0]:
                continue
            names = f"domain-{count}.pddl", f"problem-{count}.pddl"
            (folder / names[0]).write_text(domain)
            (folder / names[1]).write_text(problem)
            table.write("\t".join(map(str, (*names, scale, horizon, budget, status, repr(text)))) + "\n")
            kinds["plan" if status == 0 else text.split()[0]] += 1
            count += 1
    print(f"{count} cases in {folder}: {dict(kinds)}")


if __name__ == "__main__":
    main()
