"""Commands on a network of bounds alone: worked examples, runs that come to a fault, and texts at the edges of a line."""
import re

from program import Case, broken, byte_by_byte, many_calls, told, whole

# names, and commands with the answers that they get, at the right
EXAMPLES = (
    (
        "a_window_between_two_bounds_of_the_origin",
        """
        network 2 100
        add o 0 10                 bound 0
        add 0 o -3                 bound 1
        window 0                   window 3 10
        window 1                   window 0 100
        """,
    ),
    (
        "a_refused_bound_leaves_no_trace",
        """
        network 2 100
        add o 0 10                 bound 0
        add 0 o -3                 bound 1
        window 0                   window 3 10
        window 1                   window 0 100
        add 0 o -11                refused conflict new b0
        window 0                   window 3 10
        add o 1 7                  bound 2
        """,
    ),
    (
        "a_bound_between_events_moves_both_windows",
        """
        network 2 100
        add 0 1 5                  bound 0
        add 1 0 -2                 bound 1
        add o 0 10                 bound 2
        window 1                   window 2 15
        advance 4                  ok
        dispatch 0                 ok
        window 1                   window 6 9
        """,
    ),
    (
        "now_waits_for_a_bound_to_be_withdrawn",
        """
        network 2 100
        add 0 1 5                  bound 0
        add 1 0 -2                 bound 1
        add o 0 10                 bound 2
        window 1                   window 2 15
        advance 4                  ok
        dispatch 0                 ok
        window 1                   window 6 9
        advance 10                 refused conflict now1 past0+ b0
        withdraw 0                 ok
        advance 10                 ok
        window 1                   window 10 100
        """,
    ),
    (
        "two_bounds_round_a_loop",
        """
        network 2 1000000000
        add 0 1 -1                 bound 0
        add 1 0 0                  refused conflict new b0
        """,
    ),
    (
        "no_events_at_all",
        """
        network 0 0
        report                     report 0 bare
        advance 0                  ok
        window 0                   refused event
        """,
    ),
    (
        "an_event_is_dispatched_once_and_now_never_goes_back",
        """
        network 1 5
        advance 6                  refused moment
        advance 5                  ok
        window 0                   window 5 5
        dispatch 0                 ok
        dispatch 0                 refused done
        advance 4                  refused back
        report                     report 5 bare 5!
        """,
    ),
    (
        "weights_at_their_limits",
        """
        network 1 5
        add o 0 2000000000         bound 0
        add o 0 2000000001         refused weight
        add o 0 -2000000000        refused conflict new now0
        add 0 o -6                 refused conflict new end0
        add 1 0 5000000000         refused event
        add o 0 99999999999        refused line
        """,
    ),
    (
        "the_dispatched_past_is_a_reason",
        """
        network 1 5
        add 0 o -2                 bound 0
        dispatch 0                 refused conflict past0+ b0
        advance 3                  ok
        dispatch 0                 ok
        add o 0 2                  refused conflict new past0-
        """,
    ),
    (
        "an_event_bound_to_itself_and_lines_that_are_no_commands",
        """
        network 1 5
        add 0 0 0                  bound 0
        add 0 0 -1                 refused conflict new
        withdraw 0                 ok
        withdraw 0                 refused bound

        windo 0                    refused line
        window 0                   window 0 5
        """,
    ),
    (
        "the_event_is_looked_at_before_the_weight",
        """
        network 2 5
        add 0 1 2000000001         refused weight
        add 0 1 3                  bound 0
        add 2 0 1                  refused event
        """,
    ),
    (
        "a_night_at_a_telescope",
        """
        network 4 3600
        add 0 1 90                 bound 0
        add 1 0 -60                bound 1
        add 1 2 120                bound 2
        add 2 1 -20                bound 3
        add 2 3 300                bound 4
        add 3 2 -300               bound 5
        add o 3 500                bound 6
        window 0                   window 0 120
        window 2                   window 80 200
        advance 100                ok
        dispatch 0                 ok
        window 2                   window 180 200
        advance 175                ok
        dispatch 1                 ok
        add 2 o -210               refused conflict new b6 b5
        withdraw 6                 ok
        add o 3 520                bound 7
        add 2 o -210               bound 8
        window 2                   window 210 220
        report                     report 175 bare 100! 175! 210 510
        """,
    ),
    # Between its floor and now an event may have happened already; the report fixes it there.
    (
        "an_event_that_is_reported_late",
        """
        network 2 10
        lag 0 3
        add 0 1 5                  bound 0
        advance 4                  ok
        window 0                   window 1 10
        window 1                   window 4 10
        happened 0 0               refused back
        happened 0 5               refused moment
        happened 0 2               ok
        window 1                   window 4 7
        happened 0 2               refused done
        dispatch 1                 ok
        report                     report 4 bare 2! 4!
        """,
    ),
    # Time goes on as long as the event may have happened within its lag.
    (
        "the_floor_lies_back_by_the_lag",
        """
        network 2 10
        lag 0 3
        add o 0 2                  bound 0
        advance 6                  refused conflict now0 b0
        advance 5                  ok
        happened 0 2               ok
        """,
    ),
    # What is reported has to meet the bounds as what is dispatched has.
    (
        "a_report_that_a_bound_forbids",
        """
        network 1 10
        lag 0 4
        add 0 o -3                 bound 0
        advance 4                  ok
        happened 0 1               refused conflict past0+ b0
        """,
    ),
    # A lag behind the first command is no command.
    (
        "lags_stand_behind_the_head_alone",
        """
        network 1 5
        window 0                   window 0 5
        lag 0 2                    refused line
        happened 1 0               refused event
        """,
    ),
    # The tour of lags in README.md.
    (
        "slews_that_are_confirmed_late",
        """
        network 2 600
        lag 1 3
        add 0 1 60                 bound 0
        add 1 0 -30                bound 1
        dispatch 0                 ok
        advance 62                 ok
        window 1                   window 59 60
        happened 1 59              ok
        report                     report 62 bare 0! 59!
        """,
    ),
)

# an example whose last line has no end
WITHOUT_AN_END = "an_event_bound_to_itself_and_lines_that_are_no_commands"

COMMANDS = "network 2 100\nadd o 0 10\nadd 0 o -3\nwindow 0\nwindow 1\n"

ANSWERS = "bound 0\nbound 1\nwindow 3 10\nwindow 0 100\n"

# first lines that are no head
HEADS = (
    "",
    "\n",
    "network\n",
    "network 2\n",
    "network 1025 5\n",
    "network 1 1000000001\n",
    "network 1 1 1\n",
    "network -1 5\n",
    "net 1 1\n",
    "Network 1 1\n",
    "\nnetwork 1 1\n",
    "window 0\n",
)

# a lag of no event, a second one of an event, and one out of range
LAGS = (
    "network 1 5\nlag 1 2\n",
    "network 1 5\nlag 0 2\nlag 0 2\n",
    "network 1 5\nlag 0 1000000001\n",
    "network 0 5\nlag 0 0",
)

# commands with heads at their limits, and their answers
LIMITS = (
    ("network 1024 1000000000\nwindow 1023\nwindow 1024\n", "window 0 1000000000\nrefused event\n"),
    ("\tnetwork \r 0001  05\r\nwindow 0\n", "window 0 5\n"),
    ("network 1 5", ""),
    # lines of lags end at the first line of another form, which is answered as any other
    ("network 1 5\nlag 0 0\nlag 0 3\n\nlag 0 3\nadvance 4\nwindow 0", "refused line\nok\nwindow 1 5\n"),
    ("network 1 5\nlag 0 10000000000\nwindow 0\n", "refused line\nwindow 0 5\n"),
    ("network 1 5\n\tlag 00 01 \r\nadvance 5\nwindow 0\n", "ok\nwindow 4 5\n"),
    ("network 1 5\nlag 0 1000000000", ""),
)

# a line with so many blanks before that, and its answers
LINES = (
    (248, "window 0", "window 0 5\n"),
    (249, "window 0", "refused line\n"),
    (249, "window 0\nwindow 0", "refused line\nwindow 0 5\n"),
    (256, "\nwindow 0\n", "window 0 5\n"),
    (257, "\nwindow 0\n", "refused line\nwindow 0 5\n"),
)

# how many bytes a reader gives a call that fails behind some of them
PACES = (1, 1000)


def answered(count):
    """The answers to the commands that are whole in the first so many bytes, of which the first line is the head."""
    lines = COMMANDS[:count].count("\n")
    return "".join(ANSWERS.splitlines(keepends=True)[: max(0, lines - 1)])


def columns(name, text):
    """The commands of an example, and its answers."""
    rows = [re.split(r" {2,}", line.strip()) for line in text.splitlines()[1:-1]]
    commands = "".join(f"{row[0]}\n" for row in rows)
    answers = "".join(f"{row[1]}\n" for row in rows if len(row) > 1)
    return commands.removesuffix("\n") if name == WITHOUT_AN_END else commands, answers


class Bare(Case):
    def shows(self, name, commands, answers):
        """The commands are answered so, read in one piece and byte by byte."""
        with self.subTest(f"{name}, in one piece"):
            self.comes_to(told(answers), "bare", given=whole(commands))
        with self.subTest(f"{name}, byte by byte"):
            self.comes_to(told(answers), "bare", given=byte_by_byte(commands))

    def has_no_head(self, commands):
        with self.subTest(repr(commands)):
            self.comes_to(told("", "fault script 5 head\n", 2), "bare", given=whole(commands))

    def test_each_example_gets_its_answers(self):
        for name, text in EXAMPLES:
            self.shows(name, *columns(name, text))

    def test_no_words_stand_for_bare(self):
        self.comes_to(told(ANSWERS), "", given=whole(COMMANDS))

    def test_a_first_line_that_is_no_head_is_refused(self):
        for head in HEADS:
            self.has_no_head(head)

    def test_a_lag_that_does_not_fit_is_no_head(self):
        for lag in LAGS:
            self.has_no_head(lag)

    def test_heads_at_their_limits(self):
        for commands, answers in LIMITS:
            self.shows(repr(commands), commands, answers)

    def test_lines_of_256_bytes_and_more(self):
        self.has_no_head("network 1 5" + 246 * " " + "\n")
        for count, after, answers in LINES:
            self.shows(f"{count} blanks and {after!r}", "network 1 5\n" + count * " " + after, answers)

    @many_calls
    def test_behind_each_byte_a_failed_read_leaves_the_answers_to_the_lines_before_it(self):
        for most in PACES:
            for count in range(len(COMMANDS) + 1):
                with self.subTest(f"{count} bytes, {most} a call"):
                    wanted = told(answered(count), "fault script 1 read\n", 3)
                    self.comes_to(wanted, "bare", given=broken(COMMANDS[:count], most))

    @many_calls
    def test_at_each_byte_a_failed_write_leaves_a_first_part_of_the_answers(self):
        for room in range(len(ANSWERS)):
            with self.subTest(f"{room} bytes"):
                wanted = told(ANSWERS[:room], "fault script 2 write\n", 3)
                self.comes_to(wanted, "bare", given=whole(COMMANDS), room=room)

    def test_a_writer_that_is_never_needed_does_not_fail(self):
        self.comes_to(told(), "bare", given=whole("network 1 5\n\n \t\n"), room=0)
