"""What an adapter in Python needs, in one file: for Python 3.8 and newer, on Linux, macOS and Windows.

An adapter is a child of the learner: it brings the system that is learned back to its start at each `reset`, and steps it by each
letter. A subclass of `Adapter` says how; one of `ChildAdapter` does so for a system that is a program of its own:

    import adapter

    class Lamp(adapter.Adapter):
        def reset(self):
            self.is_on = False

        def step(self, letter):
            self.is_on = letter == "on"
            return "bright" if self.is_on else "dark"

    Lamp.main()

`print` goes to standard error here, where it can't spoil the answers, and a program that the adapter starts can't read the
learner's lines. An adapter ends with status 0 where its input ends or at `quit`, with 1 where the system or the adapter fails, with
2 where it is called wrongly or asked what no learner asks, and with 128 and a signal's number where that ends it. Standard error
says why.
"""
import contextlib
import hashlib
import io
import os
import queue
import re
import signal
import subprocess
import sys
import threading
import time
from typing import Any, BinaryIO, Iterator, List, Optional, Sequence, Tuple, Union

LONGEST_NAME, LONGEST_LINE = 64, 256
# The longest line of a program that is read, with its end, and what stands for a longer one: no line has a line feed in it.
LONGEST_SAID, TOO_LONG = 1 << 20, b"\n"
NAME = re.compile(r"[!-~]{1,64}")
# How long a program may take to end, once it was asked to or has closed its output; and how often one that is waited for is looked
# at: a program that has ended may have left its output to another one, so that its end isn't seen there.
PATIENCE = 1.0
# A program that crashes has no signal on Windows, but one of these as its status.
CRASHES = {
    0xC0000005: "SIGSEGV",
    0xC00000FD: "SIGSEGV",
    0xC000001D: "SIGILL",
    0xC0000094: "SIGFPE",
    0xC0000409: "SIGABRT",
    0xC000013A: "SIGINT",
}


class Stop(Exception):
    """The adapter ends, and reports the reason on standard error."""


class WrongLine(Stop):
    """It is asked what no learner asks."""


def name(text: Union[str, bytes]) -> str:
    """Returns a name for an output that is any text. Each byte that no name has, and `%`, becomes `%HH`, as in a web address. A
    long name keeps its first bytes and ends in a digest, so different texts have different names. No text at all is `silence`."""
    if isinstance(text, str):
        # Bytes that were no UTF-8 when a program said them are themselves again.
        is_of_bytes = not re.search("[\ud800-\udc7f\udd00-\udfff]", text)
        text = text.encode("utf-8", "surrogateescape" if is_of_bytes else "surrogatepass")
    found = "".join(chr(it) if 33 <= it <= 126 and it != 37 else "%{:02X}".format(it) for it in text) or "silence"
    if len(found) > LONGEST_NAME:
        found = found[: LONGEST_NAME - 13] + "~" + hashlib.sha256(text).hexdigest()[:12]
    return found


class Adapter:
    """A system as the learner sees it. A subclass has `reset` and `step`, and is started by `main`."""

    # What the words after the script's name mean, as the usage shows it. `__init__` is called with these words.
    arguments: Tuple[str, ...] = ()

    def reset(self) -> None:
        """Brings the system back to its start."""
        raise NotImplementedError("the adapter has no reset")

    def step(self, letter: str) -> str:
        """Gives the system a letter, and returns the name of its output: 1 to 64 printable bytes without blanks."""
        raise NotImplementedError("the adapter has no step")

    def close(self) -> None:
        """Is called at the end, however the adapter ends, but not where it is killed. It releases what the adapter holds."""

    def run(self) -> int:
        """Answers the learner until its input ends, and returns the status with which to end."""
        return run(self)

    @classmethod
    def main(cls) -> None:
        """Makes the adapter from the words of its command, runs it, and ends with its status."""
        words = sys.argv[1:]
        if len(words) != len(cls.arguments):
            tell("usage: " + " ".join((sys.argv[0],) + cls.arguments))
            sys.exit(2)
        sys.exit(cls(*words).run())


def run(system: Any) -> int:
    """Answers the learner by an object with `reset` and `step`, and maybe `close`. Returns the status with which to end. Where it
    has to stop, it reports why, and the letters since the last reset."""
    letters: List[str] = []
    try:
        end_by_signals()
        converse(system, take_streams(), letters)
        return 0
    except Exception as reason:
        if not isinstance(reason, (Stop, OSError)):
            # A fault of the adapter's own code, whose place its author wants to see.
            sys.excepthook(*sys.exc_info())
        told = reason if isinstance(reason, (Stop, OSError)) else repr(reason)
        tell("{}: {}; letters since the reset: {}".format(sys.argv[0], told, " ".join(letters) or "none"))
        return 2 if isinstance(reason, WrongLine) else 1
    finally:
        with held_signals():
            getattr(system, "close", lambda: None)()


def converse(system: Any, requests: BinaryIO, letters: List[str]) -> None:
    """Answers line by line, and keeps the letters since the last reset."""
    is_begun = False
    for line in iter(lambda: requests.readline(LONGEST_LINE), b""):
        kind, letter = request_of(line)
        if kind == "quit":
            return
        # A child is in its initial state from the start.
        if kind == "reset" or not is_begun:
            # Where the reset fails, the letters before it are reported.
            letters.append("(reset)")
            system.reset()
            letters.clear()
            is_begun = True
        answer = "ready"
        if kind == "in":
            letters.append(letter)
            output = system.step(letter)
            if not isinstance(output, str) or not NAME.fullmatch(output):
                raise Stop("step gave {!r} for {}, which is no name: adapter.name makes one of any text".format(output, letter))
            answer = "out " + output
        put(answers_file, answer.encode() + b"\n")


def request_of(line: bytes) -> Tuple[str, str]:
    """Returns what a line of the learner asks, and the letter, where it has one."""
    text = line[:-1].decode("latin-1")
    text = text[:-1] if text.endswith("\r") else text
    kind, blank, letter = text.partition(" ")
    is_known = NAME.fullmatch(letter) if kind == "in" else kind in ("reset", "quit") and not blank
    if not line.endswith(b"\n") or not is_known:
        raise WrongLine("no line of a learner: {!r}".format(line))
    return kind, letter


# The number of the file to which the answers go: standard output's, until an adapter runs.
answers_file = 1


def take_streams() -> BinaryIO:
    """Returns the learner's lines, as bytes on every system. From now on nobody else can read them or write among the answers:
    programs that the adapter starts have no input, and their output, like that of `print`, goes to standard error."""
    global answers_file
    sys.stdout = sys.stderr
    requests = os.fdopen(os.dup(0), "rb")
    answers_file = os.dup(1)
    nothing = os.open(os.devnull, os.O_RDWR)
    os.dup2(nothing, 0)
    try:
        os.dup2(2, 1)
    except OSError:
        os.dup2(nothing, 1)
    os.close(nothing)
    return requests


def put(number: int, data: bytes) -> None:
    """Puts all of it to a file, at once."""
    while data:
        data = data[os.write(number, data) :]


def tell(text: str) -> None:
    """Puts a line to standard error by one write, so that lines of several adapters don't mix."""
    with contextlib.suppress(OSError):
        os.write(2, text.encode("utf-8", "backslashreplace") + b"\n")


class Signals:
    """The signals that end the adapter, in an orderly way: how often they are held back now, and which one came meanwhile."""

    held = 0
    come = 0

    @classmethod
    def take(cls, number: int, _: Any) -> None:
        cls.come = number
        if not cls.held:
            cls.end()

    @classmethod
    def end(cls) -> None:
        number, cls.come = cls.come, 0
        raise SystemExit(128 + number)


def end_by_signals() -> None:
    """From now on a signal that asks for an end ends the adapter by SystemExit, so that what it has started is ended, too."""
    if threading.current_thread() is not threading.main_thread():
        return
    for kind in ("SIGINT", "SIGTERM", "SIGHUP", "SIGBREAK"):
        number = getattr(signal, kind, None)
        if number is not None and signal.getsignal(number) != signal.SIG_IGN:
            signal.signal(number, Signals.take)


@contextlib.contextmanager
def held_signals() -> Iterator[None]:
    """Holds those signals back, so that no program is started and not yet known, or halfway ended."""
    Signals.held += 1
    try:
        yield
    finally:
        Signals.held -= 1
        if Signals.come and not Signals.held:
            Signals.end()


class Program:
    """A program that was started, with pipes for its input and its output."""

    def __init__(self, command: Sequence[str]) -> None:
        if not command:
            raise Stop("no program is named")
        # Of a group of its own, so that what it has started in turn can be ended with it. Windows has no such groups.
        try:
            streams = {"stdin": subprocess.PIPE, "stdout": subprocess.PIPE, "bufsize": 0}
            self.process = subprocess.Popen(command, start_new_session=os.name == "posix", **streams)
        except (OSError, ValueError) as reason:
            raise Stop("{} can't be started: {}".format(command[0], reason)) from None
        self.is_over = False

    def send(self, data: bytes) -> None:
        """Sends all of it, but where the program doesn't take it any more, which the end of its output will tell."""
        with contextlib.suppress(OSError):
            while data:
                data = data[self.process.stdin.write(data) :]

    def close_input(self) -> None:
        with contextlib.suppress(OSError):
            self.process.stdin.close()

    def has_ended(self, seconds: float) -> bool:
        """Whether it ends by itself within a time."""
        try:
            self.process.wait(seconds)
        except subprocess.TimeoutExpired:
            return False
        return True

    def stop(self) -> None:
        """Ends it, where it hasn't ended, and what is left of its group: it is asked to end, and killed a second later."""
        if self.is_over:
            return
        with held_signals():
            self.close_input()
            if self.process.returncode is None:
                self.send_signal("SIGTERM")
                self.has_ended(PATIENCE)
            self.send_signal("SIGKILL")
            self.process.wait()
            self.is_over = True

    def send_signal(self, kind: str) -> None:
        # Of a group that is gone nothing is to be ended, and on Windows a program is always ended at once.
        with contextlib.suppress(OSError):
            if os.name == "posix":
                os.killpg(self.process.pid, getattr(signal, kind))
            else:
                self.process.terminate()

    def ending(self) -> str:
        """Returns how it ended, as the name of an output that is the same on every system: `exit-3`, `signal-SIGSEGV`; or `closed`,
        where it goes on, but has closed its output."""
        has_ended = self.has_ended(PATIENCE)
        status = self.process.returncode
        self.stop()
        if not has_ended:
            return "closed"
        if status < 0:
            known = {it.value: it.name for it in signal.Signals}
            return "signal-" + known.get(-status, str(-status))
        return "signal-" + CRASHES[status] if status in CRASHES else "exit-{}".format(status)


class Over(Exception):
    """The program can't be asked any more, until it is started anew: it has ended, or took too long."""


class ChildAdapter(Adapter):
    """A system that is a program of its own, which reads a line for each letter and answers it by a line. It is started anew at
    each reset, and ended with the adapter. A subclass gives its `command`, and what else differs."""

    # The program and its words.
    command: Sequence[str] = ()
    # A line that brings the program back to its start, which it answers by a line. Without one it is started anew.
    reset_line: Optional[str] = None
    # The longest time for a line of the program, in seconds; after it the output is `timeout`. Without one there is no limit.
    seconds: Optional[float] = None
    # Whether the end of the program is an output, as `exit-3` or `signal-SIGSEGV`; else it ends the adapter.
    end_is_output: bool = True

    program: Optional[Program] = None
    over: Optional[str] = None

    def request(self, letter: str) -> str:
        """Returns the line for a letter."""
        return letter

    def answer(self) -> str:
        """Returns the name of the output that the program gives to a letter. One that says several lines has each by `line`."""
        return name(self.line())

    def begin(self) -> None:
        """Is called when the program was started: the place to read what it says by itself, each line by `line`."""

    def reset(self) -> None:
        self.expect_nothing()
        if self.reset_line is not None and self.program is not None and self.over is None:
            try:
                self.send(self.reset_line)
                self.line()
                return
            except Over as reason:
                tell("{}: at a reset the program gave {}, and is started anew".format(sys.argv[0], reason))
        self.start()

    def step(self, letter: str) -> str:
        """After the end of the program each letter has the same output, up to the reset."""
        if self.over is None:
            try:
                self.send(self.request(letter))
                return self.answer()
            except Over as reason:
                self.over = str(reason)
        return self.over

    def start(self) -> None:
        """Starts the program, once the one before has ended."""
        self.close()
        # A queue of its own, so that nothing that an earlier program said is taken for an answer.
        self.lines: "queue.SimpleQueue[Optional[bytes]]" = queue.SimpleQueue()
        with held_signals():
            self.program, self.over = Program(self.command), None
        threading.Thread(target=read_lines, args=(self.program.process.stdout, self.lines), daemon=True).start()
        with contextlib.suppress(Over):
            self.begin()

    def close(self) -> None:
        if self.program is not None:
            self.program.stop()

    def send(self, text: str) -> None:
        """Sends a line to the program."""
        self.expect_nothing()
        self.program.send(text.encode("utf-8", "surrogateescape") + b"\n")

    def expect_nothing(self) -> None:
        """A line that came unasked would be taken for the next answer. A wrong model is worse than none."""
        if self.program is not None and self.over is None and not self.lines.empty():
            line = self.lines.get()
            if line is not None:
                raise Stop("the program spoke unasked: {!r}".format(line))
            self.lines.put(None)

    def line(self) -> str:
        """Returns the next line of the program, without its end."""
        end = None if self.seconds is None else time.monotonic() + self.seconds
        looks = 0
        while True:
            left = PATIENCE if end is None else min(PATIENCE, end - time.monotonic())
            try:
                line = self.lines.get(timeout=max(left, 0))
            except queue.Empty:
                if end is not None and time.monotonic() >= end:
                    self.end("timeout")
                # What it has said before its end may still come.
                looks += self.program.has_ended(0)
                if looks < 2:
                    continue
                line = None
            if line is None:
                self.end(self.program.ending())
            if line == TOO_LONG:
                raise Stop("the program said a line of more than {} bytes".format(LONGEST_SAID))
            return line.decode("utf-8", "surrogateescape")

    def end(self, how: str) -> None:
        self.program.stop()
        if not self.end_is_output:
            raise Stop("the program ended: " + how)
        self.over = how
        raise Over(how)


def read_lines(stream: BinaryIO, lines: "queue.SimpleQueue[Optional[bytes]]") -> None:
    """Puts each line of a stream into a queue, without its end, and None after the last. Nothing is read behind one that is too
    long."""
    with io.BufferedReader(stream) as reader:
        for line in iter(lambda: reader.readline(LONGEST_SAID + 1), b""):
            if len(line) > LONGEST_SAID:
                lines.put(TOO_LONG)
                return
            line = line[:-1] if line.endswith(b"\n") else line
            lines.put(line[:-1] if line.endswith(b"\r") else line)
    lines.put(None)


if __name__ == "__main__":
    tell(sys.argv[0] + ": an adapter imports this file; docs/ADVICE.md shows one of ten lines")
    sys.exit(2)
