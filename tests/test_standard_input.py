"""Calls of which one file is the standard input, `-`."""
from program import LOG, Case, broken, byte_by_byte, call, told, whole, world
from test_audits import AUDIT, NIGHT, ROWS

# a domain, a problem and a plan of it
FILES = {"d": world("CHARGE"), "p": world("UNCHARGED"), "l": "0: (rest) [3]\n"}
OWNERS = {**FILES, "o": "0 1\n"}


def without(files, name):
    """The other files, and what comes as the standard input in place of one."""
    return {other: text for other, text in files.items() if other != name}, whole(files[name])


class StandardInput(Case):
    def same(self, words, files, name):
        """A file that is the standard input is as good as the same under its name."""
        others, given = without(files, name)
        dashed = " ".join("-" if word == name else word for word in words.split())
        with self.subTest(f"tempo {dashed}"):
            self.comes_to(call(words, files), dashed, others, given)
            self.comes_to(call(words, files), dashed, others, byte_by_byte(given.text))

    def test_each_file_may_be_the_standard_input(self):
        for words, files in (
            ("check d p l", FILES),
            ("net d p l", FILES),
            ("plan d p", FILES),
            ("solve d p", FILES),
            ("split d p l o", OWNERS),
        ):
            for name in words.split()[1:]:
                self.same(words, files, name)

    def test_journals_are_audited_from_the_standard_input(self):
        for journal, answers, faults, status in ROWS:
            with self.subTest(repr(journal)):
                self.comes_to(told(answers, faults, status), "audit -", {}, whole(journal))
        self.comes_to(told("audit ok 7\n"), "audit -", {}, byte_by_byte(NIGHT))
        pairs = "> window 0\n< window 0 5\n" * 10_000
        self.comes_to(told("audit ok 10000\n"), "audit -", {}, whole(f"journal 2\nnetwork 1 5\nbare\n{pairs}"))

    def test_journals_of_plans_are_audited_from_the_standard_input(self):
        journal = call(f"run d p l --journal {LOG}", FILES, whole("window 0\ndispatch 0\nadvance 3\n")).journal
        self.comes_to(told("audit ok 3\n"), f"{AUDIT} d p l", {**FILES, LOG: journal})
        self.comes_to(told("audit ok 3\n"), "audit - d p l", FILES, whole(journal))

    def test_a_standard_input_that_fails_is_told(self):
        others, _ = without(FILES, "l")
        self.comes_to(told("", "fault file 1 read -\n", 3), "check d p -", others, broken("0: (rest"))
        self.comes_to(told("", "fault journal 2 read\n", 3), "audit -", {}, broken(NIGHT[:40]))

    def test_a_file_of_that_name_has_another_path(self):
        self.comes_to(told("valid\n"), "check d p ./-", {"d": FILES["d"], "p": FILES["p"], "-": FILES["l"]}, whole("?"))
