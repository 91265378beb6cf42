#!/usr/bin/env python3
"""compare_audits.py [--seed N] [--count N] [--keep DIR] PROGRAM: draws journals of small networks, alters two of three of them, and
prints those of which `PROGRAM audit LOG` says something else than `journals.py`. `--keep` leaves the journals of these in a folder."""

import argparse
import collections
import pathlib
import random
import re
import subprocess
import sys
import tempfile

from journals import ORIGIN, Machine, audit, command_of


def drawn_command(draw, machine):
    """A command that has something to do with where the machine stands, mostly."""
    event = draw.randrange(machine.events + 1) if draw.randrange(12) == 0 else draw.randrange(max(1, machine.events))
    kind = draw.randrange(20)
    if kind < 8:
        points = [ORIGIN, *range(machine.events), *range(machine.events)]
        a, b = draw.choice(points), draw.choice(points)
        weight = draw.choice((-2_000_000_001, 2_000_000_000, 9_999_999_999)) if draw.randrange(25) == 0 else draw.randint(-12, machine.horizon)
        return f"add {a} {b if draw.randrange(40) else event} {weight}"
    if kind < 10:
        return f"withdraw {draw.randrange(machine.next + 2)}"
    if kind < 13:
        return f"window {event}"
    if kind < 15:
        return f"advance {max(0, machine.now + draw.randint(-1, 4))}"
    if kind < 17:
        return f"dispatch {event}"
    if kind < 19:
        return f"happened {event} {max(0, machine.now - draw.randint(-1, 4))}"
    return draw.choice(("report", "?"))


def drawn_journal(draw):
    """The lines of a journal as an executive would keep it."""
    events, horizon = draw.randrange(1, 6), draw.choice((5, 20, 60, 1_000_000_000))
    version = draw.choice((1, 2, 2, 2))
    lags = {e: draw.randint(1, 6) for e in range(events) if version == 2 and draw.randrange(3) == 0}
    machine = Machine(events, horizon, lags)
    lines = [f"journal {version}", f"network {events} {horizon}", "bare", *(f"lag {e} {lag}" for e, lag in lags.items())]
    for _ in range(draw.randrange(30)):
        text = drawn_command(draw, machine)
        if version == 1 and text.startswith("happened"):
            continue
        lines += [f"> {text}", "< refused line" if text == "?" else f"< {machine.answer(command_of(text))}"]
    return lines


def other_number(draw, line):
    """The line with one of its numbers changed."""
    found = list(re.finditer(r"[0-9]+", line))
    if not found:
        return line
    at = draw.choice(found)
    number = max(0, int(at[0]) + draw.choice((-1, 1, 1, 2, -5)))
    return line[: at.start()] + str(number) + line[at.end() :]


def other_reason(draw, line):
    """The line of a conflict with other edges."""
    words = line.split(" ")
    if words[:3] != ["<", "refused", "conflict"]:
        return line
    head, edges = words[:3], words[3:]
    how = draw.randrange(5)
    if how == 0:
        edges = edges[1:] + edges[:1]
    elif how == 1:
        edges.pop(draw.randrange(len(edges)))
    elif how == 2:
        edges.insert(draw.randrange(len(edges) + 1), draw.choice(("new", "now0", "end0", "b0", "b1", "past0+", "past0-", "end1")))
    elif how == 3:
        edges[draw.randrange(len(edges))] = draw.choice(("new", "now0", "end0", "b0", "b1", "b2", "past0+", "past1-", "now1"))
    else:
        edges = edges + edges
    return " ".join(head + edges)


def altered(draw, lines):
    """The bytes of a journal with something changed."""
    lines = list(lines)
    pairs = [k for k, line in enumerate(lines) if line.startswith("> ")]
    how = draw.randrange(12)
    if pairs and how < 10:
        at, other = draw.choice(pairs), draw.choice(pairs)
        if how == 0:
            lines[at + 1] = other_number(draw, lines[at + 1])
        elif how == 1:
            lines[at + 1] = lines[other + 1]
        elif how in (2, 3):
            conflicts = [k for k in pairs if "conflict" in lines[k + 1]]
            at = draw.choice(conflicts) if conflicts else at
            lines[at + 1] = other_reason(draw, lines[at + 1])
        elif how == 4:
            del lines[at : at + 2]
        elif how == 5:
            lines[other:other] = lines[at : at + 2]
        elif how == 6:
            lines[at + 1] = draw.choice(("< refused memory", "< ok", "< refused line", "< refused event", "< refused conflict", "< bound 0"))
        elif how == 7:
            lines[at] = other_number(draw, lines[at])
        elif how == 8:
            lines[at] = draw.choice((lines[other], "> ?"))
        else:
            del lines[at + draw.randrange(2)]
    elif how == 10 and draw.randrange(3) == 0:
        at = draw.randrange(1, 3)
        lines[at] = draw.choice((other_number(draw, lines[at]), "own 0", "own 1", "lag 0 1"))
    data = "".join(f"{line}\n" for line in lines).encode()
    if how == 11:
        at = draw.randrange(len(data))
        if draw.randrange(2):
            return data[:at]
        return data[:at] + draw.choice((b"0", b" ", b"\n", b"-", b"x", b"1", b"")) + data[at + draw.randrange(2) :]
    return data


def main():
    words = argparse.ArgumentParser(description=__doc__)
    words.add_argument("--seed", type=int, default=1)
    words.add_argument("--count", type=int, default=2_000)
    words.add_argument("--keep", type=pathlib.Path)
    words.add_argument("program")
    asked = words.parse_args()
    draw, bad, kinds = random.Random(asked.seed), 0, collections.Counter()
    with tempfile.TemporaryDirectory() as room:
        log = pathlib.Path(room, "night.log")
        for case in range(asked.count):
            lines = drawn_journal(draw)
            data = altered(draw, lines) if draw.randrange(3) else "".join(f"{line}\n" for line in lines).encode()
            log.write_bytes(data)
            ran = subprocess.run([asked.program, "audit", str(log)], capture_output=True, text=True, stdin=subprocess.DEVNULL)
            said, wanted = ((ran.stdout + ran.stderr).rstrip("\n"), ran.returncode), audit(data)
            kinds[wanted[0].rsplit(" ", 1)[0]] += 1
            if said != wanted:
                bad += 1
                print(f"case {case}: {said[0]!r} ({said[1]}), expected {wanted[0]!r} ({wanted[1]})", flush=True)
                if asked.keep:
                    asked.keep.mkdir(parents=True, exist_ok=True)
                    (asked.keep / f"case-{case}.log").write_bytes(data)
    told = ", ".join(f"{count} {kind}" for kind, count in sorted(kinds.items()))
    print(f"{asked.count} cases ({told}), {bad} differ")
    return bad > 0


if __name__ == "__main__":
    sys.exit(main())
