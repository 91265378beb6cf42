"""Commands that are handed in one by one, each when the one before has its answer: who drives the program may wait for it."""
from program import LOG, Case, in_turns, world

HEAD = "network 2 100"

TURNS = (
    ("add 0 1 5", "bound 0"),
    ("add o 0 10", "bound 1"),
    ("advance x", "refused line"),
    ("advance 4", "ok"),
    ("dispatch 0", "ok"),
    ("window 1", "window 4 9"),
    ("advance 10", "refused conflict now1 past0+ b0"),
    ("report", "report 4 bare 4! 4"),
)

RUN = "run domain problem plan --horizon 100"

RUN_FILES = {"domain": world("CHARGE"), "problem": world("UNCHARGED"), "plan": "0: (rest) [4]\n"}

RUN_TURNS = (
    ("window 1", "window 2 100"),
    ("dispatch 0", "ok"),
    ("add 1 0 -3", "bound 2"),
    ("dispatch 1", "refused conflict past1+ b2 past0-"),
    ("advance 4", "ok"),
    ("dispatch 1", "ok"),
)


def pair(line, answer):
    """The two lines of a journal; a line that is no command is not repeated there."""
    return ("> ?" if answer == "refused line" else f"> {line}", f"< {answer}")


class Turns(Case):
    def takes_turns(self, words, files, head, turns):
        """Each line gets its answer before the next is handed in. Answers what the journal held by each answer."""
        lines = [(line, False) for line in head] + [(line, True) for line, _ in turns]
        told, status = in_turns(words, files, lines)
        self.assertEqual([answer for answer, _ in told], [answer for _, answer in turns], words)
        self.assertEqual(status, 0, words)
        return [journal for _, journal in told]

    def test_each_line_is_answered_before_the_next_is_there(self):
        for words in ("", "bare"):
            self.takes_turns(words, {}, [HEAD], TURNS)

    def test_so_is_each_line_of_a_run(self):
        self.takes_turns(RUN, RUN_FILES, [], RUN_TURNS)

    def test_the_journal_holds_each_pair_before_its_answer_is_there(self):
        calls = (("bare", {}, [HEAD], TURNS), (RUN, RUN_FILES, [], RUN_TURNS))
        for words, files, head, turns in calls:
            journals = self.takes_turns(f"{words} --journal {LOG}", files, head, turns)
            for count, journal in enumerate(journals, 1):
                wanted = [part for turn in turns[:count] for part in pair(*turn)]
                self.assertEqual(journal.splitlines()[-len(wanted):], wanted, words)
