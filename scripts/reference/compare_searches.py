#!/usr/bin/env python3
"""compare_searches.py DIR PROGRAM: runs `PROGRAM plan ..` on each case of DIR that
random_searches.py made, and prints those whose text or exit status differ."""

import ast
import subprocess
import sys
from pathlib import Path


def main():
    if {"-h", "--help"} & {*sys.argv[1:]}:
        print(__doc__.strip())
        sys.exit()
    folder, program = Path(sys.argv[1]), sys.argv[2:]
    bad = count = 0
    for row in (folder / "searches.tsv").read_text().splitlines():
        domain, problem, scale, horizon, budget, status, text = row.split("\t")
        words = [*program, "plan", str(folder / domain), str(folder / problem)]
        words += ["--scale", scale, "--horizon", horizon, "--budget", budget]
        done = subprocess.run(words, capture_output=True, text=True)
        count += 1
        if done.stdout != ast.literal_eval(text) or done.returncode != int(status):
            bad += 1
            print(f"{domain}: {done.stdout!r} {done.stderr!r} ({done.returncode}), expected {text} ({status})")
    print(f"{count} cases, {bad} differ")
    return bad > 0


if __name__ == "__main__":
    sys.exit(main())
