#!/usr/bin/env python3
"""compare.py DIR PROGRAM [WORD ..]: runs `PROGRAM [WORD ..] check ..` on each case of DIR and
prints those whose line or exit status differ.  Where both refuse a domain (or both a problem)
with another word, or at another place, this is counted and printed apart: a text may have
several faults, and places are no theorem."""

import subprocess
import sys
from pathlib import Path

from cases import kind_of


def main():
    if {"-h", "--help"} & {*sys.argv[1:]}:
        print(__doc__.strip())
        sys.exit()
    folder, program = Path(sys.argv[1]), sys.argv[2:]
    bad = other = place = count = 0
    for row in (folder / "expected.tsv").read_text().splitlines():
        plan, domain, problem, scale, horizon, status, line = row.split("\t")
        words = [*program, "check", *(str(folder / f) for f in (domain, problem, plan))]
        words += ["--scale", scale, "--horizon", horizon]
        done = subprocess.run(words, capture_output=True, text=True)
        faulty = line.startswith("fault")
        got = (done.stderr if faulty else done.stdout).strip("\n")
        same = got == line and (done.stdout == "" if faulty else done.stderr == "")
        count += 1
        text_fault = line.split()[:2] in (["fault", "domain"], ["fault", "problem"])
        if text_fault and not same and got.split()[:2] == line.split()[:2]:
            if kind_of(got) == kind_of(line):
                place += 1
            else:
                other += 1
                print(f"{plan}: other fault {got!r}, here {line!r}")
        elif not same or done.returncode != int(status):
            bad += 1
            print(f"{plan}: {got!r} ({done.returncode}), expected {line!r} ({status})")
    print(f"{count} cases, {bad} differ; other fault of the same text {other}, other place {place}")
    return bad > 0


if __name__ == "__main__":
    sys.exit(main())
