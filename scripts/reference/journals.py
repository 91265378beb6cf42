#!/usr/bin/env python3
"""A second reader and judge of journals, written from docs/REFERENCE.md alone.

    journals.py LOG [NETWORK HORIZON]

prints what an audit of the journal in the file LOG says: `audit ok N`, `wrong N`, or a fault line. Without a network the journal has to be
one of bounds that were handed in (`bare`); with the text that `tempo net` printed, and the horizon, it has to be one of that network.

Windows are worked out by rounds over all edges until none changes anything (Bellman and Ford).
"""
import re
import sys

MOST_EVENTS, MOST_TICKS, MOST_BOUNDS, MOST_IDS, MOST_WEIGHT = 1_024, 1_000_000_000, 65_535, 1_048_576, 2_000_000_000
ORIGIN = "o"
NUMBER = r"(0|[1-9][0-9]{0,9})"
WEIGHT = r"(0|-?[1-9][0-9]{0,9})"
POINT = r"(o|0|[1-9][0-9]{0,9})"
COMMANDS = {
    "advance": rf"advance {NUMBER}",
    "add": rf"add {POINT} {POINT} {WEIGHT}",
    "withdraw": rf"withdraw {NUMBER}",
    "window": rf"window {NUMBER}",
    "dispatch": rf"dispatch {NUMBER}",
    "happened": rf"happened {NUMBER} {NUMBER}",
    "report": r"report",
}
EVENT = r"(0|[1-9][0-9]{0,3}|[1-5][0-9]{4}|6[0-4][0-9]{3}|65[0-4][0-9]{2}|655[0-2][0-9]|6553[0-5])"
EDGE = rf"(?:b{NUMBER}|new|past{EVENT}[+-]|now{EVENT}|end{EVENT})"
NAMES = ("event", "done", "bound", "weight", "back", "moment", "full", "spent", "memory", "line")
ANSWERS = (r"ok", rf"bound {NUMBER}", rf"window {NUMBER} {NUMBER}", rf"report {NUMBER} (bare|kept|altered)( {NUMBER}!?)*", rf"refused ({'|'.join(NAMES)})", rf"refused conflict( {EDGE})+")
# the commands that may want memory: all but window
MAY_WANT = {"advance", "add", "withdraw", "dispatch", "happened", "report"}


class Broken(Exception):
    """A line breaks the format."""


def point_of(word):
    return ORIGIN if word == ORIGIN else int(word)


def command_of(text):
    """The command that a text spells in its one spelling, or None."""
    for name, form in COMMANDS.items():
        found = re.fullmatch(form, text)
        if not found:
            continue
        words = found.groups()
        if name == "add":
            points = [point_of(word) for word in words[:2]]
            if any(p != ORIGIN and p > 65_535 for p in points):
                return None
            return (name, *points, int(words[2]))
        numbers = [int(word) for word in words]
        if name in ("window", "dispatch", "happened") and numbers[0] > 65_535:
            return None
        if any(number > 4_294_967_295 for number in numbers):
            return None
        return (name, *numbers)
    return None


class Machine:
    """An executive: what it was told, and what it would say."""

    def __init__(self, events, horizon, lags, own=None):
        self.events, self.horizon, self.lags = events, horizon, dict(lags)
        self.now, self.fixed = 0, {}
        self.bounds = dict(enumerate(own or []))
        self.next = self.own = len(self.bounds)
        self.kind = "bare" if own is None else "kept"

    def floor(self, event, now):
        return max(0, now - self.lags.get(event, 0))

    def edges(self, now=None, fixed=None, new=None):
        """All edges of a setting by their texts: from, to, weight."""
        now = self.now if now is None else now
        fixed = {**self.fixed, **(fixed or {})}
        found = {f"b{name}": bound for name, bound in self.bounds.items()}
        if new is not None:
            found["new"] = new
        for event in range(self.events):
            if event in fixed:
                found[f"past{event}+"] = (ORIGIN, event, fixed[event])
                found[f"past{event}-"] = (event, ORIGIN, -fixed[event])
            else:
                found[f"now{event}"] = (event, ORIGIN, -self.floor(event, now))
                found[f"end{event}"] = (ORIGIN, event, self.horizon)
        return found

    def spread(self, edges, back=False):
        """How far each point is from the origin at most, or with `back` to it; or a negative cycle of edges."""
        far, by = {ORIGIN: 0}, {}
        rows = [(name, *((b, a) if back else (a, b)), w) for name, (a, b, w) in edges.items()]
        for _ in range(self.events + 2):
            moved = None
            for name, a, b, weight in rows:
                if a in far and far[a] + weight < far.get(b, float("inf")):
                    far[b], by[b], moved = far[a] + weight, (name, a), b
            if moved is None:
                return far, None
        for _ in range(self.events + 2):
            moved = by[moved][1]
        cycle, at = [], moved
        while True:
            name, at = by[at]
            cycle.append(name)
            if at == moved:
                break
        return None, cycle if back else cycle[::-1]

    def would(self, command):
        """The setting that would be, as arguments of `edges`, and the edges that the command brings."""
        name, *words = command
        if name == "advance":
            return {"now": words[0]}, {f"now{e}" for e in range(self.events) if e not in self.fixed}
        if name == "add":
            return {"new": tuple(words)}, {"new"}
        if name in ("dispatch", "happened"):
            event = words[0]
            return {"fixed": {event: self.now if name == "dispatch" else words[1]}}, {f"past{event}+", f"past{event}-"}
        return {}, set()

    def refusal(self, command):
        """The first refusal that applies, but for out of memory and a conflict."""
        name, *words = command
        if name == "add" and any(p != ORIGIN and p >= self.events for p in words[:2]):
            return "event"
        if name in ("window", "dispatch", "happened") and words[0] >= self.events:
            return "event"
        if name in ("dispatch", "happened") and words[0] in self.fixed:
            return "done"
        if name == "withdraw" and words[0] not in self.bounds:
            return "bound"
        if name == "add" and abs(words[2]) > MOST_WEIGHT:
            return "weight"
        if (name == "advance" and words[0] < self.now) or (name == "happened" and words[1] < self.floor(words[0], self.now)):
            return "back"
        if (name == "advance" and words[0] > self.horizon) or (name == "happened" and words[1] > self.now):
            return "moment"
        if name == "add" and len(self.bounds) >= MOST_BOUNDS:
            return "full"
        if name == "add" and self.next >= MOST_IDS:
            return "spent"
        return None

    def conflict(self, command):
        """A reason why a command leaves no schedule, or None."""
        setting, brought = self.would(command)
        if not setting:
            return None
        cycle = self.spread(self.edges(**setting))[1]
        if cycle is None:
            return None
        begin = next(at for at, name in enumerate(cycle) if name in brought)
        return cycle[begin:] + cycle[:begin]

    def is_reason(self, command, reason):
        """Whether these edges are a negative cycle of the setting that would be, begin with one that is brought, and pass no point twice."""
        setting, brought = self.would(command)
        edges = self.edges(**setting)
        if not setting or not reason or reason[0] not in brought or any(name not in edges for name in reason):
            return False
        chain = [edges[name] for name in reason]
        linked = all(chain[k][1] == chain[(k + 1) % len(chain)][0] for k in range(len(chain)))
        return linked and len({edge[0] for edge in chain}) == len(chain) and sum(edge[2] for edge in chain) < 0

    def accept(self, command):
        """Does a command that is refused by nothing, and answers its line."""
        name, *words = command
        if name == "window":
            edges = self.edges()
            return f"window {-self.spread(edges, True)[0][words[0]]} {self.spread(edges)[0][words[0]]}"
        if name == "report":
            low = self.spread(self.edges(), True)[0]
            moments = [f"{-low[e]}{'!' if e in self.fixed else ''}" for e in range(self.events)]
            return " ".join(["report", str(self.now), self.kind, *moments])
        if name == "advance":
            self.now = words[0]
        elif name == "add":
            self.bounds[self.next] = tuple(words)
            self.next += 1
            return f"bound {self.next - 1}"
        elif name == "withdraw":
            del self.bounds[words[0]]
            if words[0] < self.own:
                self.kind = "altered"
        else:
            self.fixed[words[0]] = self.now if name == "dispatch" else words[1]
        return "ok"

    def answer(self, command):
        """Its own answer to a command, which it carries out."""
        refusal = self.refusal(command)
        if refusal:
            return f"refused {refusal}"
        reason = self.conflict(command)
        if reason:
            return "refused conflict " + " ".join(reason)
        return self.accept(command)

    def allows(self, command, text):
        """Whether it may answer so. It then carries the command out."""
        refusal = self.refusal(command)
        if refusal:
            return text == f"refused {refusal}"
        if text == "refused memory":
            return command[0] in MAY_WANT
        words = text.split(" ")
        if words[:2] == ["refused", "conflict"]:
            return self.is_reason(command, words[2:])
        return self.conflict(command) is None and text == self.accept(command)


class Lines:
    """The lines of a journal. The number is that of the line taken last."""

    def __init__(self, data):
        self.rest, self.number = data, 0

    def take(self):
        """The next line, which has to end and be of at most 16,384 bytes, in ASCII."""
        self.number += 1
        line, end, self.rest = self.rest.partition(b"\n")
        if not end or len(line) > 16_384:
            raise Broken
        try:
            return line.decode("ascii")
        except UnicodeDecodeError:
            raise Broken from None

    def form(self, form):
        found = re.fullmatch(form, self.take())
        if not found:
            raise Broken
        return found.groups()


def head_of(lines):
    """The head: version, events, horizon, own bounds (None: bare) and lags."""
    version = int(lines.form(r"journal ([12])")[0])
    events, horizon = (int(word) for word in lines.form(rf"network {NUMBER} {NUMBER}"))
    if events > MOST_EVENTS or horizon > MOST_TICKS:
        raise Broken
    own = None
    count = lines.form(rf"bare|own {NUMBER}")[0]
    if count is not None:
        if int(count) > MOST_BOUNDS:
            raise Broken
        own = []
        for k in range(int(count)):
            name, a, b, weight = lines.form(rf"bound {NUMBER} {POINT} {POINT} {WEIGHT}")
            if int(name) != k or any(word != ORIGIN and int(word) > 65_535 for word in (a, b)):
                raise Broken
            own.append((point_of(a), point_of(b), int(weight)))
    lags, last = [], -1
    while version == 2 and lines.rest.startswith(b"lag "):
        event, lag = (int(word) for word in lines.form(rf"lag {NUMBER} {NUMBER}"))
        if not (last < event < events and 1 <= lag <= MOST_TICKS):
            raise Broken
        lags.append((event, lag))
        last = event
    if lines.rest and lines.rest[:1] not in (b">", b"<"):
        lines.number += 1
        raise Broken
    return version, events, horizon, own, lags


def network_of(text):
    """The events and the bounds that `tempo net` printed."""
    lines = text.splitlines()
    rows = [line.split()[2:] for line in lines if line.startswith("bound ")]
    return sum(line.startswith("event ") for line in lines), [(point_of(a), point_of(b), int(w)) for a, b, w in rows]


def audit(data, network=None, horizon=None):
    """What an audit says of the bytes of a journal, and its exit status."""
    lines = Lines(data)
    try:
        version, events, ticks, own, lags = head_of(lines)
        if network is None and own is not None or network is not None and (events, own, ticks) != (*network, horizon):
            return "fault journal 5 head", 2
        machine = Machine(events, ticks, lags, own)
        pairs = 0
        while lines.rest:
            asked = lines.take()
            command = command_of(asked[2:])
            if not asked.startswith("> ") or (command is None and asked != "> ?") or (version == 1 and command and command[0] == "happened"):
                raise Broken
            told = lines.take()
            if not told.startswith("< ") or not any(re.fullmatch(form, told[2:]) for form in ANSWERS):
                raise Broken
            if told[2:] != "refused line" if command is None else not machine.allows(command, told[2:]):
                return f"wrong {lines.number}", 1
            pairs += 1
        return f"audit ok {pairs}", 0
    except Broken:
        return f"fault journal 3 line {lines.number}", 2


def main():
    if {"-h", "--help"} & {*sys.argv[1:]}:
        print(__doc__.strip())
        sys.exit()
    if len(sys.argv) not in (2, 4):
        sys.exit(__doc__)
    with open(sys.argv[1], "rb") as file:
        data = file.read()
    if len(sys.argv) == 4:
        with open(sys.argv[2]) as file:
            network = network_of(file.read())
        said, status = audit(data, network, int(sys.argv[3]))
    else:
        said, status = audit(data)
    print(said, file=sys.stderr if status == 2 else sys.stdout)
    return status


if __name__ == "__main__":
    sys.exit(main())
