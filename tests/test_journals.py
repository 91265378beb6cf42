"""Journals that commands on a network of bounds alone, and runs of plans, leave in a file, worked by hand, and their audits."""
from program import FOLDER, LOG, Case, broken, byte_by_byte, many_calls, told, whole, world

BARE = "bare --journal night.log"

COMMANDS = "network 2 100\nadd o 0 10\nadd 0 o -3\n\nwindow 0\nwindow  01 \nadd 0 o -11\nwindo 0\nadd o 1 7"

ANSWERS = "bound 0\nbound 1\nwindow 3 10\nwindow 0 100\nrefused conflict new b0\nrefused line\nbound 2\n"

JOURNAL = (
    "journal 2\nnetwork 2 100\nbare\n> add o 0 10\n< bound 0\n> add 0 o -3\n< bound 1\n"
    "> window 0\n< window 3 10\n> window 1\n< window 0 100\n> add 0 o -11\n"
    "< refused conflict new b0\n> ?\n< refused line\n> add o 1 7\n< bound 2\n"
)

LATE = "network 2 10\nlag 0 3\nadd o 0 2\nadvance 6\nadvance 5\nhappened 0 2\n"

LATE_ANSWERS = "bound 0\nrefused conflict now0 b0\nok\nok\n"

LATE_JOURNAL = (
    "journal 2\nnetwork 2 10\nbare\nlag 0 3\n> add o 0 2\n< bound 0\n> advance 6\n"
    "< refused conflict now0 b0\n> advance 5\n< ok\n> happened 0 2\n< ok\n"
)

# two commands, of which the second is cut short by a device
TWO = "network 1 5\nadvance 1\nadvance 2\n"

# commands, the room of the journal file if one can be made, the journal, answers, the fault line, and the exit status
ROWS = (
    (COMMANDS, 1_000, JOURNAL, ANSWERS, "", 0),
    # lags stand in the head
    (LATE, 1_000, LATE_JOURNAL, LATE_ANSWERS, "", 0),
    # but for those that are 0
    (
        "network 3 10\nlag 0 3\nlag 1 0\nlag 2 4\nadvance 4\nhappened 0 1\n",
        1_000,
        "journal 2\nnetwork 3 10\nbare\nlag 0 3\nlag 2 4\n> advance 4\n< ok\n> happened 0 1\n< ok\n",
        "ok\nok\n",
        "",
        0,
    ),
    # no event, and a last line without an end
    (
        "network 0 0\nreport\nadvance 0\nwindow 0",
        1_000,
        "journal 2\nnetwork 0 0\nbare\n> report\n< report 0 bare\n> advance 0\n< ok\n> window 0\n< refused event\n",
        "report 0 bare\nok\nrefused event\n",
        "",
        0,
    ),
    # lines without words have no pair, and all others one spelling
    (
        "network 1 5\n\n  window\t 00 \r\n\t\nwindo 0\nreport",
        1_000,
        "journal 2\nnetwork 1 5\nbare\n> window 0\n< window 0 5\n> ?\n< refused line\n> report\n< report 0 bare 0\n",
        "window 0 5\nrefused line\nreport 0 bare 0\n",
        "",
        0,
    ),
    # no line behind the head
    ("network 0 0", 100, "journal 2\nnetwork 0 0\nbare\n", "", "", 0),
    # the file can't be made
    (COMMANDS, None, None, "", "fault script 6 log\n", 3),
    # no head, and so no journal
    ("advance 4\n", 100, "", "", "fault script 5 head\n", 2),
    ("", 100, "", "", "fault script 5 head\n", 2),
    ("network 1025 4\n", 100, "", "", "fault script 5 head\n", 2),
    # a lag that does not fit
    ("network 1 5\nlag 1 2\n", 100, "", "", "fault script 5 head\n", 2),
    ("network 1 5\nlag 0 2\nlag 0 2\n", 100, "", "", "fault script 5 head\n", 2),
    # no room for the head
    (TWO, 0, "", "", "fault script 6 log\n", 3),
    # no room for the second pair, whose answer does not go out
    (TWO, 46, "journal 2\nnetwork 1 5\nbare\n> advance 1\n< ok\n> ", "ok\n", "fault script 6 log\n", 3),
)

RUN = "run domain problem plan --horizon 100 --journal night.log"

AUDIT = "audit night.log domain problem plan --horizon 100"

# the same up to another horizon
OTHERWISE = "audit night.log domain problem plan"

ALONE = "audit night.log"

WATCH = "0: (watch) [5]\n2: (give)\n3: (drop)\n"

RUN_COMMANDS = "dispatch 0\nadvance 1\ndispatch 3\nwindow 2\nadvance 2\ndispatch 2\nadvance 5\ndispatch 1\n"

RUN_ANSWERS = (
    "ok\nok\nok\nwindow 1 1\nrefused conflict now2 past3+ b6\nok\nok\nok\n"
    "plan\n0: (watch) [5]\n1: (give)\n1: (drop)\n"
)

RUN_JOURNAL = (
    "journal 2\nnetwork 4 100\nown 7\nbound 0 1 0 -5\nbound 1 0 1 5\nbound 2 2 0 0\n"
    "bound 3 1 2 0\nbound 4 3 0 0\nbound 5 1 3 0\nbound 6 3 2 0\n"
    "> dispatch 0\n< ok\n> advance 1\n< ok\n> dispatch 3\n< ok\n> window 2\n"
    "< window 1 1\n> advance 2\n< refused conflict now2 past3+ b6\n> dispatch 2\n"
    "< ok\n> advance 5\n< ok\n> dispatch 1\n< ok\n"
)

# the same with another answer in line 18
ALTERED = (
    "journal 2\nnetwork 4 100\nown 7\nbound 0 1 0 -5\nbound 1 0 1 5\nbound 2 2 0 0\n"
    "bound 3 1 2 0\nbound 4 3 0 0\nbound 5 1 3 0\nbound 6 3 2 0\n"
    "> dispatch 0\n< ok\n> advance 1\n< ok\n> dispatch 3\n< ok\n> window 2\n"
    "< window 0 1\n"
)

# a run without a plan, of which an event may be reported late
REST = "0: (rest) [4]\n"

REST_COMMANDS = "lag 0 3\nadvance 4\nhappened 0 2\nwindow 1\nwindo\n"

REST_ANSWERS = "ok\nok\nwindow 4 8\nrefused line\n"

REST_JOURNAL = (
    "journal 2\nnetwork 2 100\nown 2\nbound 0 1 0 -2\nbound 1 0 1 6\nlag 0 3\n"
    "> advance 4\n< ok\n> happened 0 2\n< ok\n> window 1\n< window 4 8\n"
    "> ?\n< refused line\n"
)

WATCHED = {"domain": world("TOGGLE"), "problem": world("TOGGLED"), "plan": WATCH}

RESTED = {"domain": world("CHARGE"), "problem": world("UNCHARGED"), "plan": REST}

# its plan is not valid
CHARGED = {**RESTED, "plan": "0: (charge) [7]\n"}

# its domain is not whole
TORN = {**WATCHED, "domain": "("}

# what a run is called, its files, commands, journal, answers, fault line, and exit status
RUNS = (
    ("a run whose plan is printed", WATCHED, RUN_COMMANDS, RUN_JOURNAL, RUN_ANSWERS, "", 0),
    ("a run without a plan", RESTED, REST_COMMANDS, REST_JOURNAL, REST_ANSWERS, "", 1),
    # no run, and so no journal
    ("a plan that is not valid", CHARGED, "dispatch 0\n", None, "invalid 0 duration 0\n", "", 1),
    ("a lag that does not fit", RESTED, "lag 2 1\n", "", "", "fault script 5 head\n", 2),
)

# commands of a whole run without lags, what they come to, and the journal
HELD_COMMANDS = "dispatch 0\nadvance 4\ndispatch 1\n"

HELD_ANSWERS = "ok\nok\nok\nplan\n0: (rest) [4]\n"

HELD_JOURNAL = (
    "journal 2\nnetwork 2 100\nown 2\nbound 0 1 0 -2\nbound 1 0 1 6\n"
    "> dispatch 0\n< ok\n> advance 4\n< ok\n> dispatch 1\n< ok\n"
)

# how many lines the head of that journal has
HELD_HEAD = 5

HEAD = "fault journal 5 head\n"

# a right head of the run whose plan is printed, and one with another bound, each with no question behind it
UNASKED = RUN_JOURNAL.partition("> ")[0] + "> foo\n"

OTHER_BOUND = UNASKED.replace("bound 0 1 0 -5", "bound 0 1 0 -4")

# a head of three events, of which the plan has two
LAG_OF_A_THIRD = "journal 2\nnetwork 3 100\nown 2\nbound 0 1 0 -2\nbound 1 0 1 6\nlag 2 3\n"

# no question behind the head of a network of bounds alone, and a line that is none of a head
FOO = "journal 1\nnetwork 2 100\nbare\n> foo\n"

WINDOW = "journal 1\nnetwork 2 100\nbare\nwindow 0\n"

# what an audit is called, its words, the files of the plan, the journal, answers, fault line, and exit status
AUDITS = (
    ("a run whose plan is printed", AUDIT, WATCHED, RUN_JOURNAL, "audit ok 8\n", "", 0),
    ("an answer that is altered", AUDIT, WATCHED, ALTERED, "wrong 18\n", "", 1),
    ("a run without a plan", AUDIT, RESTED, REST_JOURNAL, "audit ok 4\n", "", 0),
    ("a window that is altered", AUDIT, RESTED, REST_JOURNAL.replace("window 4 8", "window 4 9"), "wrong 12\n", "", 1),
    ("a journal without its last line", AUDIT, RESTED, REST_JOURNAL.removesuffix("< refused line\n"), "", "fault journal 3 line 14\n", 2),
    ("a lag of an event that the plan has not", AUDIT, RESTED, LAG_OF_A_THIRD, "", HEAD, 2),
    ("without the plan", ALONE, WATCHED, RUN_JOURNAL, "", HEAD, 2),
    ("with another horizon", OTHERWISE, WATCHED, RUN_JOURNAL, "", HEAD, 2),
    ("with another plan", AUDIT, RESTED, RUN_JOURNAL, "", HEAD, 2),
    # the head is looked at before the files of the plan, and the plan before the rest
    ("a head and a domain at fault", AUDIT, TORN, "journal 3\n", "", "fault journal 3 line 1\n", 2),
    ("no question behind a head, and no domain", AUDIT, {}, FOO, "", "fault file 1 read domain\n", 3),
    ("a line that is none of a head, and no domain", AUDIT, {}, WINDOW, "", "fault journal 3 line 4\n", 2),
    ("no question behind the head", AUDIT, WATCHED, UNASKED, "", "fault journal 3 line 11\n", 2),
    ("no question behind another head", AUDIT, WATCHED, OTHER_BOUND, "", HEAD, 2),
    ("no question behind a head of bounds alone", AUDIT, WATCHED, FOO, "", HEAD, 2),
    ("another head, and a plan that is not valid", AUDIT, CHARGED, RUN_JOURNAL, "invalid 0 duration 0\n", "", 1),
)


class Journals(Case):
    def leave(self, read):
        for commands, room, journal, answers, faults, status in ROWS:
            with self.subTest(f"{commands!r} and room for {room} bytes"):
                files = {LOG: FOLDER} if room is None else {}
                self.comes_to(told(answers, faults, status, journal), BARE, files, read(commands), log_room=room)

    def test_journals_are_kept_in_a_file(self):
        self.leave(whole)

    def test_journals_of_commands_that_come_byte_by_byte(self):
        self.leave(byte_by_byte)

    # an answer goes out for each pair that is whole in the file, behind the three lines of the head
    @many_calls
    def test_at_each_byte_a_full_journal_holds_back_the_answer_of_its_last_pair(self):
        for room in range(len(JOURNAL)):
            with self.subTest(f"{room} bytes"):
                pairs = max(0, JOURNAL[:room].count("\n") - 3) // 2
                answers = "".join(ANSWERS.splitlines(keepends=True)[:pairs])
                wanted = told(answers, "fault script 6 log\n", 3, JOURNAL[:room])
                self.comes_to(wanted, BARE, given=whole(COMMANDS), log_room=room)

    # the pair of an answer that does not go out whole is in the journal
    @many_calls
    def test_at_each_byte_an_output_without_room_leaves_the_pair_in_the_journal(self):
        for room in range(len(ANSWERS)):
            with self.subTest(f"{room} bytes"):
                pairs = ANSWERS[:room].count("\n") + 1
                kept = "".join(JOURNAL.splitlines(keepends=True)[: 3 + 2 * pairs])
                wanted = told(ANSWERS[:room], "fault script 2 write\n", 3, kept)
                self.comes_to(wanted, BARE, given=whole(COMMANDS), room=room, log_room=10_000)

    # the lines that were read whole are answered, and have their pairs; the head is written with the first of them
    @many_calls
    def test_behind_each_byte_a_failed_read_leaves_the_pairs_of_the_lines_before_it(self):
        for count in range(COMMANDS.index("add 0"), len(COMMANDS) + 1):
            with self.subTest(f"{count} bytes"):
                lines = [line for line in COMMANDS[:count].split("\n")[1:-1] if line]
                answers = "".join(ANSWERS.splitlines(keepends=True)[: len(lines)])
                kept = "".join(JOURNAL.splitlines(keepends=True)[: 3 + 2 * len(lines)])
                wanted = told(answers, "fault script 1 read\n", 3, kept)
                self.comes_to(wanted, BARE, given=broken(COMMANDS[:count]), log_room=10_000)

    # what a full journal holds, up to the end of its last whole pair, is a journal
    @many_calls
    def test_the_whole_pairs_of_a_full_journal_are_a_journal(self):
        lines = JOURNAL.splitlines(keepends=True)
        for pairs in range((len(lines) - 3) // 2 + 1):
            with self.subTest(f"{pairs} pairs"):
                kept = "".join(lines[: 3 + 2 * pairs])
                self.comes_to(told(f"audit ok {pairs}\n"), ALONE, {LOG: kept})

    def test_journals_that_were_kept_are_journals(self):
        for journal, answers in ((JOURNAL, "audit ok 7\n"), (LATE_JOURNAL, "audit ok 4\n")):
            with self.subTest(answers):
                self.comes_to(told(answers), "audit night.log", {LOG: journal})

    def test_journals_of_runs_that_devices_stop(self):
        head = "journal 2\nnetwork 1 5\nbare\n"
        # the pairs of the lines before are in the journal
        with self.subTest("the input breaks"):
            wanted = told("ok\n", "fault script 1 read\n", 3, head + "> advance 1\n< ok\n")
            self.comes_to(wanted, BARE, given=broken("network 1 5\nadvance 1\nadv"), log_room=100)
        # the pair of the answer that can't be written is in the journal
        with self.subTest("the second answer can't be written"):
            wanted = told("ok\n", "fault script 2 write\n", 3, head + "> advance 1\n< ok\n> advance 2\n< ok\n")
            self.comes_to(wanted, BARE, given=whole(TWO), room=3, log_room=100)

    def test_journals_of_the_runs_of_plans(self):
        for name, files, commands, journal, answers, faults, status in RUNS:
            with self.subTest(name):
                self.comes_to(told(answers, faults, status, journal), RUN, files, whole(commands), log_room=1_000)

    # a first part of the journal, and the answers of the pairs that are whole in it
    @many_calls
    def test_at_each_byte_a_full_journal_of_a_run_holds_back_an_answer(self):
        for room in range(len(HELD_JOURNAL)):
            with self.subTest(f"{room} bytes"):
                pairs = max(0, HELD_JOURNAL[:room].count("\n") - HELD_HEAD) // 2
                answers = "".join(HELD_ANSWERS.splitlines(keepends=True)[:pairs])
                wanted = told(answers, "fault script 6 log\n", 3, HELD_JOURNAL[:room])
                self.comes_to(wanted, RUN, RESTED, whole(HELD_COMMANDS), log_room=room)

    # of an answer that does not go out whole the pair is in the journal; of a plan that does not, all pairs are
    @many_calls
    def test_at_each_byte_an_output_of_a_run_without_room_leaves_the_pair(self):
        for room in range(len(HELD_ANSWERS)):
            with self.subTest(f"{room} bytes"):
                pairs = HELD_ANSWERS[:room].count("\n") + 1
                kept = "".join(HELD_JOURNAL.splitlines(keepends=True)[: HELD_HEAD + 2 * pairs])
                wanted = told(HELD_ANSWERS[:room], "fault script 2 write\n", 3, kept)
                self.comes_to(wanted, RUN, RESTED, whole(HELD_COMMANDS), room=room, log_room=10_000)

    def test_a_run_whose_journal_can_not_be_made(self):
        self.comes_to(told("", "fault script 6 log\n", 3), RUN, {**WATCHED, LOG: FOLDER}, whole(RUN_COMMANDS))

    def test_journals_of_plans_are_audited(self):
        for name, words, files, journal, answers, faults, status in AUDITS:
            with self.subTest(name):
                self.comes_to(told(answers, faults, status), words, {**files, LOG: journal})
