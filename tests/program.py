"""Calls of the built program with real files and streams, and what came of them, for the tests beside this file.

Each call is made in a folder of its own that holds the files which it is given. `scripts/program-tests` says which program is called.
"""
import collections
import difflib
import fcntl
import os
import pathlib
import re
import resource
import select
import signal
import socket
import struct
import subprocess
import tempfile
import termios
import time
import unittest

TOP = pathlib.Path(__file__).resolve().parent.parent
WORLDS = "crates/tp_testkit/src/domains.rt"
# the journal that calls keep
LOG = "night.log"
# how long a call may take
SECONDS = 60
# how far any file may grow in a call that limits files and says no more of it
LIMIT = 1 << 20

# the program that is called, as `scripts/program-tests` sets it
built = TOP / "crates/tempo/out/tempo"
# what is put into the environment of a call, as `scripts/refused-memory` sets it
around = {}

# under a name, in place of a text: a file that must not be opened, since that would never end; and a folder
NEVER, FOLDER = object(), object()
# a file that can be opened once, and would never end if it were opened twice
Once = collections.namedtuple("Once", "text")
# an input: its bytes, how many of them a read gives at most (None: any number), and whether behind them a read fails
Input = collections.namedtuple("Input", "text most broken")
# what went to standard output and to standard error, the exit status, and the journal that was kept, if a file was made
Outcome = collections.namedtuple("Outcome", "answers faults status journal")


def world(name):
    """The text of that name among the small domains and problems that all tests share."""
    found = re.search(rf'(?m)^pub const {name}: &str = "([^"\\]*)";$', (TOP / WORLDS).read_text())
    if found is None:
        raise LookupError(f"{WORLDS} has no text {name}")
    return found[1]


def raw(text):
    return text.encode() if isinstance(text, str) else text


def whole(text):
    """All of the text, and then the end."""
    return Input(raw(text), None, False)


def byte_by_byte(text):
    """The text, of which each read gives one byte."""
    return Input(raw(text), 1, False)


def broken(text, most=None):
    """A text behind which a read fails."""
    return Input(raw(text), most, True)


def told(answers="", faults="", status=0, journal=None):
    """What a call is to come to."""
    return Outcome(raw(answers), raw(faults), status, None if journal is None else raw(journal))


def told_by(text, status):
    """The same where just one of both streams gets a text: standard error if input is refused."""
    return told("", text, status) if status == 2 else told(text, "", status)


def lay_out(folder, files):
    """Makes the files of a call. Answers the processes that write those that can be opened once."""
    writers = []
    for name, text in files.items():
        path = pathlib.Path(folder, name)
        if text is FOLDER:
            path.mkdir()
        elif text is NEVER or isinstance(text, Once):
            os.mkfifo(path)
        else:
            path.write_bytes(raw(text))
        if isinstance(text, Once):
            writers.append(subprocess.Popen(["dd", f"of={path}", "status=none"], stdin=subprocess.PIPE))
            writers[-1].stdin.write(raw(text.text))
            writers[-1].stdin.close()
    return writers


def streams(given):
    """Our end and the program's of a stream of packets, of which each read gives one."""
    ours, theirs = socket.socketpair(socket.AF_UNIX, socket.SOCK_SEQPACKET)
    ours.settimeout(SECONDS)
    if given.broken:
        # an end that is closed with something unread in it makes reads at the other end fail
        theirs.send(b"unread")
    return ours, theirs


def is_all_taken(ours):
    return struct.unpack("i", fcntl.ioctl(ours, termios.TIOCOUTQ, bytes(4)))[0] == 0


def hand_in(ours, given):
    """Hands in a packet after the other, and closes the stream; a broken one once the program has taken all of them."""
    most = given.most or max(1, len(given.text))
    latest = time.monotonic() + SECONDS
    try:
        for at in range(0, len(given.text), most):
            ours.send(given.text[at : at + most])
    except (BrokenPipeError, ConnectionResetError):
        pass  # it has ended, and takes no more
    while given.broken and not is_all_taken(ours) and time.monotonic() < latest:
        time.sleep(0.0005)
    ours.close()


def limited(limit):
    """In the program's process: no file grows past so many bytes; a write takes what there is room for, and the next one fails."""
    signal.signal(signal.SIGXFSZ, signal.SIG_IGN)
    resource.setrlimit(resource.RLIMIT_FSIZE, (limit, limit))


def communicate(words, folder, given, output, limit, env):
    """Runs words in a folder. Answers what went to both streams, and the exit status."""
    how = {"cwd": folder, "env": {**os.environ, **env}, "stdout": output, "stderr": subprocess.PIPE}
    if limit is not None:
        how["preexec_fn"] = lambda: limited(limit)
    in_packets = given.most is not None or given.broken
    ours, theirs = streams(given) if in_packets else (None, subprocess.PIPE)
    with subprocess.Popen(words, stdin=theirs, **how) as ran:
        try:
            if in_packets:
                theirs.close()
                hand_in(ours, given)
            answers, faults = ran.communicate(None if in_packets else given.text, timeout=SECONDS)
        except (subprocess.TimeoutExpired, TimeoutError):
            ran.kill()
            raise AssertionError(f"the call did not end within {SECONDS} seconds") from None
    return answers, faults, ran.returncode


def attempt(words, files, given, room, log_room, env):
    words = [str(built), *("" if word == "''" else word for word in words.split())]
    with tempfile.TemporaryDirectory() as top:
        folder, output = pathlib.Path(top, "files"), pathlib.Path(top, "output")
        folder.mkdir()
        writers = lay_out(folder, files)
        try:
            if room is None:
                answers, faults, status = communicate(words, folder, given, subprocess.PIPE, log_room, env)
            else:
                # the output begins behind a hole, so that it may grow by its room until the limit of all files is reached
                limit = LIMIT if log_room is None else log_room
                with output.open("wb") as file:
                    file.seek(limit - room)
                    _, faults, status = communicate(words, folder, given, file, limit, env)
                answers = output.read_bytes()[limit - room :]
        finally:
            for writer in writers:
                writer.kill()
                writer.wait()
        log = folder / LOG
        return Outcome(answers, faults, status, log.read_bytes() if LOG not in files and log.is_file() else None)


def wants_memory(outcome):
    """Whether memory was refused to the call, or to a command, whose answer may have been cut short."""
    told = re.search(rb"^fault script 3 memory\n|[ ][12] memory\n\Z", outcome.faults)
    refused = b"refused memory"
    cut = any(outcome.answers.endswith(refused[:count]) for count in range(1, len(refused)))
    return told is not None or refused in outcome.answers or cut


def call(words, files={}, given=whole(""), room=None, log_room=None):
    """What comes of a call with these words, files by their names, and that input. Its output is a pipe, or where a room is given a
    file that takes so many bytes; no file grows past the room of the journal. Where memory was refused, it is called once more."""
    outcome = attempt(words, files, given, room, log_room, around)
    if around and wants_memory(outcome):
        outcome = attempt(words, files, given, room, log_room, {})
    return outcome


def held(words, files, most):
    """What comes of a call that may take so many bytes of memory, and how many it held at most, or this process where it began."""
    with tempfile.TemporaryDirectory() as top:
        folder = pathlib.Path(top)
        lay_out(folder, files)
        how = {"cwd": folder, "stdin": subprocess.DEVNULL, "stdout": subprocess.PIPE, "stderr": subprocess.PIPE}
        how["preexec_fn"] = lambda: resource.setrlimit(resource.RLIMIT_AS, (most, most))
        with subprocess.Popen([str(built), *words.split()], **how) as ran:
            answers, faults = ran.stdout.read(), ran.stderr.read()
            _, ended, used = os.wait4(ran.pid, 0)
            ran.returncode = os.waitstatus_to_exitcode(ended)
    return Outcome(answers, faults, ran.returncode, None), used.ru_maxrss * 1024


def next_line(stream, latest):
    """The next line of what a program writes to a pipe; None if it is not whole when the time is over or the pipe is closed."""
    line = b""
    while not line.endswith(b"\n"):
        ready, _, _ = select.select([stream], [], [], max(0, latest - time.monotonic()))
        byte = os.read(stream.fileno(), 1) if ready else b""
        if not byte:
            return None
        line += byte
    return line.decode(errors="replace").removesuffix("\n")


def in_turns(words, files, lines):
    """Hands in one line after another, each only when the one before has its answer, where it is to have one. `lines` are pairs of a
    line and whether it has an answer. Answers what came for each and the journal by then, up to the first line that got no answer in
    time, and the exit status."""
    with tempfile.TemporaryDirectory() as top:
        folder = pathlib.Path(top)
        lay_out(folder, files)
        how = {"cwd": folder, "stdin": subprocess.PIPE, "stdout": subprocess.PIPE, "stderr": subprocess.DEVNULL}
        with subprocess.Popen([str(built), *words.split()], **how) as ran:
            turns = []
            for line, has_answer in lines:
                ran.stdin.write(raw(f"{line}\n"))
                ran.stdin.flush()
                if has_answer:
                    answer = next_line(ran.stdout, time.monotonic() + SECONDS)
                    if answer is None:
                        break
                    log = folder / LOG
                    turns.append((answer, log.read_text() if log.is_file() else None))
            ran.stdin.close()
            try:
                return turns, ran.wait(timeout=SECONDS)
            except subprocess.TimeoutExpired:
                ran.kill()
                raise AssertionError(f"the call did not end within {SECONDS} seconds") from None


def lines_of(part):
    """The lines of what was written, so that each byte can be seen."""
    return ["no file"] if part is None else [repr(line)[1:] for line in part.splitlines(keepends=True)]


def differences(wanted, found):
    """Lines that tell how what was found differs from what was wanted: `-` what is missing, `+` what should not be there."""
    told = []
    for name, want, find in zip(("standard output", "standard error", "exit status", "journal"), wanted, found):
        if want != find and isinstance(want, int):
            told += [f"{name}: {find}, not {want}"]
        elif want != find:
            told += [f"{name}:", *list(difflib.unified_diff(lines_of(want), lines_of(find), lineterm="", n=1))[3:]]
    return told


def many_calls(test):
    """Marks a test that makes hundreds of calls, or calls that ask for memory thousands of times: `scripts/refused-memory` leaves it
    out."""
    test.many_calls = True
    return test


class Case(unittest.TestCase):
    """A test that calls the program."""

    def comes_to(self, wanted, words, files={}, given=whole(""), room=None, log_room=None):
        """A call has to come to just that, to the byte."""
        apart = differences(wanted, call(words, files, given, room, log_room))
        if apart:
            self.fail("\n".join([f"tempo {words}", *apart]))
