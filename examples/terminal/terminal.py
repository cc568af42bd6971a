#!/usr/bin/env python3
"""A controller that is asked over a pseudo-terminal, by lines of text, as a child of the learner.

    terminal.py SECONDS PROGRAM        PROGRAM is a controller in Python, with the standard library alone

A letter is typed as a line. The controller echoes it, which is stripped, and answers lines of text up to its prompt: they are the
output, with `-` for a blank and `+` between lines, or `prompt` where there are none. Where the prompt doesn't come, the output has
`silence` in its place: nothing has come for SECONDS, counted from the echo or from the last byte behind it. What comes later all
the same, before the next letter or reset, ends the adapter: a wrong model is worse than none. The end of the controller is an
output, too, as `exit-1`.
"""
import contextlib
import os
import pty
import select
import subprocess
import sys
import time

sys.dont_write_bytecode = True
sys.path.insert(1, os.path.dirname(os.path.dirname(os.path.abspath(__file__))))
import adapter

# The end of an answer: the prompt, at the start of a line.
END = b"\r\n> "
# How long the controller may take for its first prompt, or for an echo. No output depends on it, so it may be long.
PATIENCE = 20.0


class AtTerminal(adapter.Program):
    """A program that was started with a pseudo-terminal for its input and its output."""

    def __init__(self, command):
        # The program has the far end alone, so it sees a terminal that is hung up where this end is closed, or its adapter killed.
        self.terminal, far = pty.openpty()
        try:
            self.process = subprocess.Popen(command, stdin=far, stdout=far, start_new_session=True)
        finally:
            os.close(far)
        self.is_over = False

    def close_input(self):
        os.close(self.terminal)


class Terminal(adapter.Adapter):
    arguments = ("SECONDS", "PROGRAM")
    program = None

    def __init__(self, seconds, path):
        self.seconds, self.command = float(seconds), [sys.executable, "-I", "-S", path]

    def reset(self):
        self.expect_nothing()
        self.close()
        with adapter.held_signals():
            self.program = AtTerminal(self.command)
        # Nothing is typed before the first prompt: the controller has put the terminal into raw mode by then.
        self.said, self.ending = b"\r\n", ""
        if not self.comes(lambda: self.said.endswith(END), PATIENCE):
            raise adapter.Stop("the controller shows no prompt: {!r}".format(self.said))

    def step(self, letter):
        self.expect_nothing()
        output = self.ending or self.output_of(letter.encode())
        return self.ending or output

    def output_of(self, line):
        """Types a line, and returns the output."""
        self.said, echo = b"", line + b"\r\n"
        with contextlib.suppress(OSError):
            adapter.put(self.program.terminal, line + b"\r")
        self.comes(lambda: len(self.said) >= len(echo), PATIENCE)
        if not self.ending and not self.said.startswith(echo):
            raise adapter.Stop("no echo of {!r}: {!r}".format(line, self.said))
        # The echo says that the line has been read: only now the time of the answer begins.
        if self.comes(lambda: self.said.endswith(END), self.seconds):
            text, lacking = self.said[len(line) : -len(END)], []
        else:
            text, lacking = self.said[len(echo) :], ["silence"]
        parts = [it for it in text.decode("latin-1").replace(" ", "-").split("\r\n") if it]
        return adapter.name("+".join(parts + lacking) or "prompt")

    def comes(self, is_there, seconds):
        """Reads until what is waited for is there. Whether it is, before nothing has come for a time or the controller has ended."""
        while not self.ending and not is_there():
            if not select.select([self.program.terminal], [], [], seconds)[0]:
                return False
            self.take()
        return not self.ending

    def take(self):
        try:
            piece = os.read(self.program.terminal, 4096)
        except OSError:
            # So Linux says that nobody has the far end any more.
            piece = b""
        self.said += piece
        if not piece:
            self.ending = self.program.ending()

    def expect_nothing(self):
        if self.program and not self.ending and select.select([self.program.terminal], [], [], 0)[0]:
            self.take()
            if not self.ending:
                raise adapter.Stop("the controller spoke after it was taken for silent: {!r}".format(self.said))

    def close(self):
        if self.program:
            self.program.stop()


if __name__ == "__main__":
    Terminal.main()
