"""Calls for help and for the version, and words that are refused."""
import subprocess

from program import NEVER, Case, call, told, whole

# words that are refused, and what is said of them
REFUSED = (
    ("join", "error: unrecognized subcommand 'join'"),
    ("splits d p l o", "error: unrecognized subcommand 'splits'"),
    ("plan d", "<PROBLEM>"),
    ("solve d", "<PROBLEM>"),
    ("audit", "<LOG>"),
    ("Bare", "error: unrecognized subcommand 'Bare'"),
    ("bare bare", "error: unexpected argument 'bare' found"),
    ("--journal log", "error: unexpected argument '--journal' found"),
    ("bare --journal", "--journal <FILE>"),
    ("bare --journal a --journal b", "cannot be used multiple times"),
    ("check d p", "<PLAN>"),
    ("net d p", "<PLAN>"),
    ("run d p", "<PLAN>"),
    ("split", "<DOMAIN>"),
    ("split d p", "<PLAN>"),
    ("split d p l", "<OWNERS>"),
    ("split d p l o x", "error: unexpected argument 'x' found"),
    ("split d p l o --journal log", "error: unexpected argument '--journal' found"),
    ("audit log d", ""),
    ("audit log d p", ""),
    ("audit log --scale 7", ""),
    ("audit log d p l o", "error: unexpected argument 'o' found"),
    ("run d p l --journal", "--journal <FILE>"),
    ("net d p l --journal log", "error: unexpected argument '--journal' found"),
    ("check d p l o", "error: unexpected argument 'o' found"),
    ("''", "error: "),
    ("help join", "error: "),
    # the standard input is one file at most, and none where commands are read there
    ("check - - l", ""),
    ("check - p -", ""),
    ("net d - -", ""),
    ("plan - -", ""),
    ("solve - -", ""),
    ("run - p l", ""),
    ("run d p - --journal log", ""),
    ("audit - d p -", ""),
    ("audit - - p l", ""),
    ("split - p l -", ""),
    ("split d p - -", ""),
    # a journal goes to a file of its own
    ("bare --journal -", ""),
    ("run d p l --journal -", ""),
    ("run d p l --journal d", ""),
    ("run d p l --journal p", ""),
    ("run d p l --journal l", ""),
    ("check d p l --explain --explain", "cannot be used multiple times"),
    ("check d p l --explain=1", "--explain"),
)

# options that no call of `check`, `split`, `plan` or `solve` may have
OTHERS = (
    ("check d p l --scale 0", ""),
    ("check d p l --scale 7", ""),
    ("check d p l --scale 1001", ""),
    ("check d p l --horizon 1000000001", ""),
    ("check d p l --horizon -1", ""),
    ("check d p l --budget 5", "error: unexpected argument '--budget' found"),
    ("split d p l o --scale 7", ""),
    ("split d p l o --horizon 1000000001", "1000000001 is not in 0..=1000000000"),
    ("split d p l o --budget 5", "error: unexpected argument '--budget' found"),
    ("plan d p --scale 7", ""),
    ("plan d p --horizon 1000000001", "1000000001 is not in 0..=1000000000"),
    ("plan d p --budget 1000001", "1000001 is not in 0..=1000000"),
    ("plan d p --journal log", "error: unexpected argument '--journal' found"),
    ("plan d p --improve", "error: unexpected argument '--improve' found"),
    ("solve d p --scale 7", ""),
    ("solve d p --horizon 1000000001", "1000000001 is not in 0..=1000000000"),
    ("solve d p --budget 1000000001", "1000000001 is not in 0..=1000000000"),
    ("solve d p --improve=1", "--improve"),
    ("solve d p --progress --progress", "cannot be used multiple times"),
)

# calls for the help of the program and of its commands, and what stands in it
HELPS = (
    (("--help", "-h", "help"), ("Usage: tempo", "bare", "split", "--explain", "Examples:", "Exit status: 0 yes")),
    (
        ("bare --help", "help bare"),
        ("Usage: tempo bare", "network N H", "window E", "--journal <FILE>", "--resume <OLD>", "--explain", "Example:"),
    ),
    (
        ("check --help", "help check"),
        ("Usage: tempo check", "--explain", "TIME: (NAME ARG ..) [DURATION]", "--scale", "--horizon", "1000000", "Example:"),
    ),
    (("net --help", "help net"), ("Usage: tempo net", "--explain", "event E TEXT", "bound ID F T W", "--horizon", "Example:")),
    (
        ("run --help", "help run"),
        (
            "Usage: tempo run",
            "--explain",
            "lag E L",
            "`altered`",
            "--journal <FILE>",
            "--resume <OLD>",
            "--scale",
            "Exit status: 0 a plan of the run was printed",
            "Example:",
        ),
    ),
    (
        ("plan --help", "help plan"),
        ("Usage: tempo plan", "--explain", "unreachable", "exhausted", "spent B", "--progress", "waiting", "--budget", "100000", "--horizon", "--scale", "Example:"),
    ),
    (
        ("solve --help", "help solve"),
        ("Usage: tempo solve", "--explain", "unreachable", "--budget", "1000000000", "--improve", "--progress", "makespan M expanded N", "Example:"),
    ),
    (
        ("split --help", "help split"),
        (
            "Usage: tempo split",
            "--explain",
            "<OWNERS>",
            "interval E LO HI",
            "one to four digits",
            "--part <A>",
            "--scale",
            "--horizon",
            "Exit status: 0 for the intervals",
            "Example:",
        ),
    ),
    (("audit --help", "help audit"), ("Usage: tempo audit", "--explain", "[DOMAIN]", "audit ok N", "wrong N", "--horizon", "Examples:")),
    (("draw --help", "help draw"), ("Usage: tempo draw", "--explain", "<PLAN>", "--journal <LOG>", "--scale", "--horizon", "Example:")),
)


class Arguments(Case):
    def is_refused(self, words, why):
        """The words are refused before any file is opened, and that stands in what is said of them below the fault line."""
        files = {word: NEVER for word in words.split() if word not in ("''", ".")}
        found = call(words, files, whole("network 1 5\n"))
        line, _, said = found.faults.decode().partition("\n")
        self.assertEqual((found.answers, line, found.status), (b"", "fault arguments 1 words", 2))
        self.assertIn(why, said)

    def helps(self, words, texts):
        """The words call for a help in which all of these texts stand."""
        found = call(words)
        self.assertEqual((found.faults, found.status), (b"", 0))
        for text in texts:
            self.assertIn(text, found.answers.decode())

    def test_words_that_are_no_command_are_refused(self):
        for words, why in REFUSED:
            with self.subTest(f"tempo {words}"):
                self.is_refused(words, why)

    def test_help_goes_to_the_output(self):
        for calls, texts in HELPS:
            for words in calls:
                with self.subTest(f"tempo {words}"):
                    self.helps(words, texts)

    def test_a_version_that_cannot_be_written(self):
        self.comes_to(told("tem", "fault script 2 write\n", 3), "--version", room=3)

    def test_the_version_names_the_logic_of_the_kit(self):
        _, logic = subprocess.run(["rt", "version"], capture_output=True, check=True).stdout.split(b" logic ")
        for words in ("--version", "-V"):
            with self.subTest(f"tempo {words}"):
                found = call(words)
                self.assertEqual((found.answers, found.faults, found.status), (b"tempo 0.3.0 (rattle logic " + logic.strip() + b")\n", b"", 0))

    def test_other_scales_and_horizons_are_refused(self):
        for words, why in OTHERS:
            with self.subTest(f"tempo {words}"):
                self.is_refused(words, why)
