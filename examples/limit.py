#!/usr/bin/env python3
"""Stands between the learner and a program, and ends the program where a letter takes too long.

    limit.py SECONDS PROGRAM [WORD..]

In a setup it stands before the command of a child, of whatever kind:

    {"command": ["python3", "examples/limit.py", "5", "python3", "mine/door.py"], "inputs": ["open", "close"]}

Lines pass both ways as they are, one at a time. Where the answer to one takes longer than SECONDS, standard error says which
letter it was, and the program is ended: so a learning ends, with a reason, where it would wait for ever. A program that goes on
for longer than that after the end of its input is ended, too. Where one ends by itself too early, standard error says how.

Ends with the program's status, with 128 and a signal's number where that has ended it, with 124 where it took too long, with 1
where it can't be started or the learner has gone, and with 2 where it is called wrongly. For Python 3.8 and newer.
"""
import os
import sys
import threading
import time
from typing import Optional, Sequence

sys.dont_write_bytecode = True
import adapter

LATE, MOST = 124, 1e6


class Limit:
    """A program whose lines pass through here, and a thread that looks at the clock."""

    def __init__(self, seconds: float, command: Sequence[str]) -> None:
        self.seconds = seconds
        # What the program was asked last, since when it owes the answer, and how many answers came before they were asked for.
        self.asked = b""
        self.since: Optional[float] = None
        self.ahead = 0
        # How many letters it was asked since the reset.
        self.letters = 0
        self.is_late = False
        self.program = adapter.Program(command)
        self.output = self.program.process.stdout.fileno()
        threading.Thread(target=self.watch, daemon=True).start()

    def pass_lines(self) -> int:
        """Passes lines until one side ends, and returns the status."""
        rest = b""
        for data in iter(lambda: os.read(0, 65536), b""):
            *lines, rest = (rest + data).split(b"\n")
            for line in lines:
                if line.rstrip(b"\r") == b"quit":
                    return self.finish(line + b"\n")
                if not self.ask(line):
                    return self.cut()
        return self.finish(rest)

    def ask(self, line: bytes) -> bool:
        """Asks the program a line and passes its answer, piece by piece as it comes. Whether it has given one."""
        self.letters = self.letters + 1 if line.startswith(b"in ") else 0
        self.asked, self.since = line, time.monotonic()
        self.program.send(line + b"\n")
        while not self.ahead:
            if not self.pass_piece():
                return False
        self.ahead -= 1
        self.since = None
        return True

    def pass_piece(self) -> bool:
        data = os.read(self.output, 65536)
        adapter.put(1, data)
        self.ahead += data.count(b"\n")
        return bool(data)

    def finish(self, rest: bytes) -> int:
        """Hands on the end of the input, and passes what the program says until it has ended."""
        self.asked, self.since = b"", time.monotonic()
        self.program.send(rest)
        self.program.close_input()
        while self.pass_piece():
            pass
        self.program.has_ended(self.seconds + adapter.PATIENCE)
        return self.status()

    def cut(self) -> int:
        """Tells how the program has ended, which still owes an answer."""
        # No clock runs for that, but where it was the clock that ended it.
        self.since = None
        how = "" if self.is_late else self.program.ending()
        if how:
            adapter.tell("limit.py: the program ended ({}) at {}".format(how, self.place()))
        return self.status() or 1

    def status(self) -> int:
        """Returns the program's status, with which to end, but where it was late: then the other thread ends all."""
        if self.is_late:
            threading.Event().wait()
        self.since = None
        status = self.program.process.returncode
        return 128 - status if status < 0 else status if status < 256 else 1

    def place(self) -> str:
        """Says what the program was asked last."""
        text = self.asked.decode("ascii", "backslashreplace").rstrip("\r")
        if text.startswith("in "):
            return "the letter {}, number {} since the reset".format(text[3:], self.letters)
        return "the line {}".format(text) if text else "the end of its input"

    def watch(self) -> None:
        """Sleeps until the last answer would be late, and ends all where it is. Where none is owed, the next one can't be late any
        sooner than after the whole time, so no line has to wake this thread."""
        while not self.is_late:
            since = self.since
            left = self.seconds if since is None else since + self.seconds - time.monotonic()
            self.is_late = left <= 0 and since == self.since
            time.sleep(min(max(left, 0), 3600))
        adapter.tell("limit.py: no answer within {:g} s to {}".format(self.seconds, self.place()))
        self.program.stop()
        os._exit(LATE)


def main() -> int:
    try:
        seconds = float(sys.argv[1])
        command = sys.argv[2:]
        if not command or not 0 < seconds <= MOST:
            raise ValueError
    except (IndexError, ValueError):
        adapter.tell("usage: limit.py SECONDS PROGRAM [WORD..], with SECONDS above 0, and up to {:.0f}".format(MOST))
        return 2
    adapter.end_by_signals()
    limit = None
    try:
        with adapter.held_signals():
            limit = Limit(seconds, command)
        return limit.pass_lines()
    except (OSError, adapter.Stop) as reason:
        adapter.tell("limit.py: {}".format(reason))
        return 1
    finally:
        if limit:
            limit.program.stop()


if __name__ == "__main__":
    sys.exit(main())
