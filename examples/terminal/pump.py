#!/usr/bin/env python3
"""An old controller of a pump, at a terminal in raw mode: it echoes each key, answers each line, and then shows its prompt.

It ends where the terminal is hung up. What it does is in `Pump`; the rest is what a terminal needs.
"""
import contextlib
import os
import tty

RETURN, ERASE, HUNG_UP = b"\r", (b"\b", b"\x7f"), b""


class Pump:
    """The pump is on or off; in service it runs slowly, and a stop is to be confirmed."""

    is_on = is_in_service = is_to_confirm = False

    def answer(self, line):
        """Returns what is said to a line, or None where the controller waits for the next one without a word."""
        if self.is_to_confirm:
            self.is_to_confirm = False
            if line != "yes":
                return "CANCELLED"
            self.is_on = False
            return "PUMP OFF"
        actions = {"start": self.start, "stop": self.stop, "service": self.service}
        return actions[line]() if line in actions else "?"

    def start(self):
        if self.is_on:
            return "IS ON"
        self.is_on = True
        return "PUMP ON SLOW" if self.is_in_service else "PUMP ON"

    def stop(self):
        if not self.is_on:
            return "IS OFF"
        if self.is_in_service:
            self.is_to_confirm = True
            return None
        self.is_on = False
        return "PUMP OFF"

    def service(self):
        if self.is_on:
            return "PUMP IS ON"
        self.is_in_service = not self.is_in_service
        return "SERVICE" if self.is_in_service else "END OF SERVICE"


def put(data):
    os.write(1, data)


def key():
    return os.read(0, 1)


def lines():
    """Yields each line once it was ended by the return key."""
    line = b""
    for it in iter(key, HUNG_UP):
        if it == RETURN:
            put(b"\r\n")
            yield line.decode("latin-1")
            line = b""
        elif it in ERASE:
            put(b"\b \b" if line else b"")
            line = line[:-1]
        else:
            line += it
            put(it)


def main():
    tty.setraw(0)
    put(b"PUMP CONTROL 1.4\r\n> ")
    pump = Pump()
    for line in lines():
        said = pump.answer(line)
        if said is not None:
            put(said.encode() + b"\r\n> ")


if __name__ == "__main__":
    # So Linux says that a terminal is hung up.
    with contextlib.suppress(OSError):
        main()
