"""Runs that go on from the journal of a session that was cut off."""
import importlib.machinery
import importlib.util
import pathlib
import random
import subprocess
import tempfile

import program
from program import LOG, TOP, Case, call, many_calls, told, whole, world
from test_journals import COMMANDS, JOURNAL, LATE, LATE_JOURNAL, RUN_COMMANDS, RUN_JOURNAL, WATCH

# how many sessions are ended by force, and how many commands each of them has
SESSIONS, LINES = 20, 1500

BARE = f"bare --resume old.log --journal {LOG}"

PLAN = {"domain": world("TOGGLE"), "problem": world("TOGGLED"), "plan": WATCH}

RUN = f"run domain problem plan --horizon 100 --resume old.log --journal {LOG}"

# the lines of sessions that have an answer
BARE_LINES = [line for line in COMMANDS.split("\n")[1:] if line.strip()]
LATE_LINES = LATE.splitlines()[2:]
RUN_LINES = RUN_COMMANDS.splitlines()

# what is refused as a journal, as an audit refuses it: the old file, what is told, and the exit status
REFUSED = (
    (None, "", "fault file 1 read old.log\n", 3),
    ("", "", "fault journal 3 line 1\n", 2),
    ("journal 3\n", "", "fault journal 3 line 1\n", 2),
    ("journal 2\nnetwork 1 5\n", "", "fault journal 3 line 3\n", 2),
    ("journal 2\nnetwork 1 5\nbare\nlag 0", "", "fault journal 3 line 4\n", 2),
    ("journal 2\nnetwork 1 5\nown 0\n> window 0\n< window 0 5\n", "", "fault journal 5 head\n", 2),
    ("journal 2\nnetwork 1 5\nbare\n> windo 0\n< ok\n> window 0\n", "", "fault journal 3 line 4\n", 2),
    ("journal 2\nnetwork 1 5\nbare\n< ok\n", "", "fault journal 3 line 4\n", 2),
    ("journal 2\nnetwork 1 5\nbare\n> window 0\n< window 0 4\n> report\n< rep", "wrong 5\n", "", 1),
)


def script(name):
    """A script of scripts/, as a module."""
    path = str(TOP / "scripts" / name)
    loader = importlib.machinery.SourceFileLoader(name.replace("-", "_"), path)
    module = importlib.util.module_from_spec(importlib.util.spec_from_loader(loader.name, loader))
    loader.exec_module(module)
    return module


def heads(journal):
    """How many bytes stand before the pairs of a journal."""
    return journal.index("> ")


def whole_pairs(journal):
    """How many whole pairs a journal has that was cut off."""
    lines = journal.split("\n")[:-1]
    return sum(line.startswith("< ") for line in lines)


class Resumed(Case):
    def goes_on(self, words, files, lines, journal, cut):
        """A session whose journal was cut off there goes on with the commands whose pairs are not whole, and leaves the journal
        that it would have left in one piece."""
        old = journal[:cut]
        rest = lines[whole_pairs(old) :]
        found = call(words, {**files, "old.log": old}, whole("".join(f"{line}\n" for line in rest)))
        self.assertEqual((found.faults, found.journal), (b"", journal.encode()), f"cut at {cut}")
        self.assertIn(found.status, (0, 1))
        return found

    def cuts(self, journal):
        return range(heads(journal), len(journal) + 1)

    @many_calls
    def test_a_journal_goes_on_wherever_it_was_cut_off(self):
        for lines, journal in ((BARE_LINES, JOURNAL), (LATE_LINES, LATE_JOURNAL)):
            for cut in self.cuts(journal):
                self.goes_on(BARE, {}, lines, journal, cut)

    @many_calls
    def test_a_run_goes_on_wherever_it_was_cut_off(self):
        for cut in self.cuts(RUN_JOURNAL):
            found = self.goes_on(RUN, PLAN, RUN_LINES, RUN_JOURNAL, cut)
            self.assertTrue(found.answers.endswith(b"plan\n0: (watch) [5]\n1: (give)\n1: (drop)\n"))
            self.assertEqual(found.status, 0)

    def test_a_run_that_has_no_plan_goes_on(self):
        old = RUN_JOURNAL[: RUN_JOURNAL.index("> dispatch 3")]
        journal = old + "> window 1\n< window 5 5\n"
        self.comes_to(told("window 5 5\n", "", 1, journal), RUN, {**PLAN, "old.log": old}, whole("window 1\n"))

    def test_what_is_no_journal_is_refused_as_an_audit_refuses_it(self):
        for old, answers, faults, status in REFUSED:
            files = {} if old is None else {"old.log": old}
            with self.subTest(repr(old)):
                self.comes_to(told(answers, faults, status), BARE, files, whole("window 0\n"))

    def test_a_journal_of_another_network_is_refused(self):
        files = {**PLAN, "old.log": RUN_JOURNAL}
        self.comes_to(told("", "fault journal 5 head\n", 2), RUN.replace("--horizon 100 ", ""), files, whole("report\n"))
        self.comes_to(told("", "fault journal 5 head\n", 2), RUN, {**PLAN, "old.log": JOURNAL}, whole("report\n"))
        self.comes_to(told("", "fault journal 5 head\n", 2), BARE, files, whole("report\n"))
        wrong = RUN_JOURNAL.replace("< window 1 1\n", "< window 0 1\n")
        self.comes_to(told("wrong 18\n", "", 1), RUN, {**PLAN, "old.log": wrong}, whole("report\n"))

    def test_a_plan_that_is_not_valid_has_no_run_to_go_on_with(self):
        files = {**PLAN, "plan": "0: (watch) [4]\n", "old.log": RUN_JOURNAL}
        self.comes_to(told("invalid 0 duration 0\n", "", 1), RUN, files, whole("report\n"))

    def test_a_journal_of_the_first_version_goes_on_as_one_of_the_second(self):
        old = "journal 1\nnetwork 1 5\nbare\n> window 0\n< window 0 5\n"
        journal = old.replace("journal 1", "journal 2") + "> advance 1\n< ok\n> happened 0 1\n< ok\n"
        self.comes_to(told("ok\nok\n", "", 0, journal), BARE, {"old.log": old}, whole("advance 1\nhappened 0 1\n"))

    def test_there_is_neither_a_head_nor_a_lag_in_the_input(self):
        old = "journal 2\nnetwork 1 5\nbare\n"
        journal = old + "> ?\n< refused line\n> ?\n< refused line\n"
        self.comes_to(told("refused line\nrefused line\n", "", 0, journal), BARE, {"old.log": old}, whole("network 1 5\nlag 0 1\n"))

    def test_a_new_journal_that_takes_no_more_is_told(self):
        old = "journal 2\nnetwork 1 5\nbare\n> advance 1\n< ok\n"
        for room, journal in ((0, ""), (20, old[:20]), (len(old) + 4, old + "> ad")):
            with self.subTest(f"room for {room} bytes"):
                self.comes_to(
                    told("", "fault script 6 log\n", 3, journal), BARE, {"old.log": old}, whole("advance 2\n"), log_room=room
                )

    @many_calls
    def test_sessions_that_are_ended_by_force_go_on(self):
        killed = script("killed-journals")
        sent, questions = killed.drawn_list(64, LINES)
        head = sent.split(b"\n")[: 1 + len(killed.LAGS)]
        asked = [line for line in sent.split(b"\n")[len(head) : -1] if line.strip(b" \t\r")]
        self.assertEqual(len(asked), len(questions))
        draw = random.Random(64)
        with tempfile.TemporaryDirectory() as room:
            one, old, new = (str(pathlib.Path(room, name)) for name in ("one.log", "old.log", "new.log"))
            seen, *_ = killed.session(program.built, one, sent)
            journal = pathlib.Path(one).read_bytes()
            for number in range(SESSIONS):
                pathlib.Path(old).unlink(missing_ok=True)
                killed.session(program.built, old, sent, size=draw.randrange(1, len(seen)))
                kept = pathlib.Path(old).read_bytes()
                pairs = whole_pairs(kept.decode())
                words = [program.built, "bare", "--resume", old, "--journal", new]
                rest = b"".join(line + b"\n" for line in asked[pairs:])
                ran = subprocess.run(words, input=rest, capture_output=True)
                with self.subTest(f"session {number}, {len(kept)} bytes, {pairs} pairs"):
                    self.assertEqual((ran.stderr, ran.returncode), (b"", 0))
                    self.assertEqual(pathlib.Path(new).read_bytes(), journal)
                    audited = subprocess.run([program.built, "audit", new], capture_output=True, text=True)
                    self.assertEqual((audited.stdout, audited.returncode), (f"audit ok {len(questions)}\n", 0))
