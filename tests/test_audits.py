"""Audits of journals in files, worked by hand."""
from program import LOG, Case, told

AUDIT = "audit night.log"

# seven pairs of a network of bounds alone
NIGHT = (
    "journal 1\nnetwork 2 100\nbare\n> add o 0 10\n< bound 0\n> add 0 o -3\n< bound 1\n"
    "> window 0\n< window 3 10\n> window 1\n< window 0 100\n> add 0 o -11\n"
    "< refused conflict new b0\n> window 0\n< window 3 10\n> add o 1 7\n< bound 2\n"
)

# the same with another reason
ALTERED = (
    "journal 1\nnetwork 2 100\nbare\n> add o 0 10\n< bound 0\n> add 0 o -3\n< bound 1\n"
    "> window 0\n< window 3 10\n> window 1\n< window 0 100\n> add 0 o -11\n"
    "< refused conflict new b1\n> window 0\n< window 3 10\n> add o 1 7\n< bound 2\n"
)

# the same without its last line
CUT = (
    "journal 1\nnetwork 2 100\nbare\n> add o 0 10\n< bound 0\n> add 0 o -3\n< bound 1\n"
    "> window 0\n< window 3 10\n> window 1\n< window 0 100\n> add 0 o -11\n"
    "< refused conflict new b0\n> window 0\n< window 3 10\n> add o 1 7\n"
)

ONE = "journal 2\nnetwork 1 5\nbare\n"

# a bound that no schedule meets, behind two of the same weight
TWICE = "journal 2\nnetwork 1 5\nbare\n> add o 0 3\n< bound 0\n> add o 0 3\n< bound 1\n> add 0 o -4\n"

# a journal, what an audit of it writes, and the exit status
ROWS = (
    (NIGHT, "audit ok 7\n", "", 0),
    (ALTERED, "wrong 13\n", "", 1),
    (CUT, "", "fault journal 3 line 17\n", 2),
    ("", "", "fault journal 3 line 1\n", 2),
    ("journal 2\nnetwork 0 0\nbare\n", "audit ok 0\n", "", 0),
    # a network that came from a plan
    ("journal 2\nnetwork 1 5\nown 0\n> window 0\n< window 0 5\n", "", "fault journal 5 head\n", 2),
    # the same, whatever stands behind its head: no question, an answer, one without an end, one that is too long
    ("journal 2\nnetwork 1 5\nown 0\n> foo\n", "", "fault journal 5 head\n", 2),
    ("journal 2\nnetwork 1 5\nown 0\n< ok\n", "", "fault journal 5 head\n", 2),
    ("journal 2\nnetwork 1 5\nown 0\n> window 0", "", "fault journal 5 head\n", 2),
    ("journal 2\nnetwork 1 5\nown 0\n> " + 16_383 * "w" + "\n", "", "fault journal 5 head\n", 2),
    # a line that begins otherwise is one of the head
    ("journal 2\nnetwork 1 5\nown 0\nwindow 0\n", "", "fault journal 3 line 4\n", 2),
    ("journal 2\nnetwork 1 5\nown 0\nlag 0 3", "", "fault journal 3 line 4\n", 2),
    ("journal 2\nnetwork 1 5\nown 0\n" + 16_385 * "w" + "\n", "", "fault journal 3 line 4\n", 2),
    # no question behind a right head
    ("journal 1\nnetwork 2 100\nbare\n> foo\n", "", "fault journal 3 line 4\n", 2),
    ("journal 1\nnetwork 2 100\nbare\n< ok\n", "", "fault journal 3 line 4\n", 2),
    ("journal 1\nnetwork 2 100\nbare\n> window 0", "", "fault journal 3 line 4\n", 2),
    ("journal 1\nnetwork 2 100\nbare\n> " + 16_383 * "w" + "\n", "", "fault journal 3 line 4\n", 2),
    # an event that is reported late
    (
        "journal 2\nnetwork 2 10\nbare\nlag 0 3\n> add o 0 2\n< bound 0\n> advance 6\n"
        "< refused conflict now0 b0\n> advance 5\n< ok\n> happened 0 2\n< ok\n",
        "audit ok 4\n",
        "",
        0,
    ),
    # other heads: of another version, with too many events, without a last line, with a lag in the first version or of no event
    ("journal 3\nnetwork 0 0\nbare\n", "", "fault journal 3 line 1\n", 2),
    ("journal 2\nnetwork 1025 0\nbare\n", "", "fault journal 3 line 2\n", 2),
    ("journal 2\nnetwork 0 0\n", "", "fault journal 3 line 3\n", 2),
    ("journal 1\nnetwork 1 5\nbare\nlag 0 3\n", "", "fault journal 3 line 4\n", 2),
    ("journal 2\nnetwork 1 5\nbare\nlag 1 3\n", "", "fault journal 3 line 4\n", 2),
    ("journal 2\nnetwork 1 5\nown 1\nbound 0 o 0 4\n> window 0\n< window 0 4\n", "", "fault journal 5 head\n", 2),
    # a question without its answer, and one that lacks an end
    ("journal 2\nnetwork 1 5\nbare\n> ?\n", "", "fault journal 3 line 5\n", 2),
    ("journal 2\nnetwork 1 5\nbare\n> ?", "", "fault journal 3 line 4\n", 2),
    # two bounds do as well as a reason, and a chain has to begin with the new one
    (f"{TWICE}< refused conflict new b0\n", "audit ok 3\n", "", 0),
    (f"{TWICE}< refused conflict new b1\n", "audit ok 3\n", "", 0),
    (f"{TWICE}< refused conflict b0 new\n", "wrong 9\n", "", 1),
    (f"{TWICE}< refused conflict new end0\n", "wrong 9\n", "", 1),
    # a bound that wanted memory narrows no window
    (NIGHT.replace("< bound 1\n", "< refused memory\n"), "wrong 9\n", "", 1),
    # pairs behind the head of a network of one event: right and wrong answers, and lines of another spelling
    (f"{ONE}> add o 0 3\n< refused memory\n> window 0\n< window 0 5\n", "audit ok 2\n", "", 0),
    (f"{ONE}> window 0\n< window 0 3\n", "wrong 5\n", "", 1),
    (f"{ONE}> window 0\n< window 00 5\n", "", "fault journal 3 line 5\n", 2),
    (f"{ONE}> window 0\n< window 0  5\n", "", "fault journal 3 line 5\n", 2),
    (f"{ONE}> window 00\n< window 0 5\n", "", "fault journal 3 line 4\n", 2),
    (f"{ONE}> ?\n< refused line\n> window 0\n< refused line\n", "wrong 7\n", "", 1),
    (f"{ONE}> ?\n< ok\n", "wrong 5\n", "", 1),
    (f"{ONE}lag 0 0\n> report\n< report 0 bare 0\n", "", "fault journal 3 line 4\n", 2),
    (f"{ONE}> add o 0 3\n< bound 0\n> add 0 o -4\n< refused conflict b0 new\n", "wrong 7\n", "", 1),
    (f"{ONE}> add o 0 3\n< bound 0\n> add 0 o -4\n< refused conflict new end0\n", "wrong 7\n", "", 1),
    ("journal 1\nnetwork 2 10\nbare\n> happened 0 0\n< ok\n", "", "fault journal 3 line 4\n", 2),
    # a window can't want memory
    ("journal 1\nnetwork 2 100\nbare\n> window 0\n< refused memory\n", "wrong 5\n", "", 1),
)


class Audits(Case):
    def test_journals_in_files_are_audited(self):
        for journal, answers, faults, status in ROWS:
            with self.subTest(repr(journal)):
                self.comes_to(told(answers, faults, status), AUDIT, {LOG: journal})

    def test_a_journal_that_is_missing_is_told(self):
        self.comes_to(told("", "fault file 1 read night.log\n", 3), AUDIT)

    def test_what_is_found_cannot_be_written(self):
        found = "audit ok 7\n"
        for room in range(len(found)):
            with self.subTest(f"{room} bytes"):
                self.comes_to(told(found[:room], "fault script 2 write\n", 3), AUDIT, {LOG: NIGHT}, room=room)
