"""Learnings of what answers as it likes, done plainly: the answers are kept as they come, up to the first clash or stop.

It is the plain learner with a table, with no extra states and one worker. Outputs are told by their names.
"""
import json

from learners import System, Table, learn
from machines import canonical, outputs_of
from readers import LONGEST_LINE, Answer, Player, take_line
from verdicts import first_clash
from views import is_name

MOST_FREE = 256
ENDED = "system ended: instance 0\n"
FAILED = "system failed: instance 0\n"


class Stop(Exception):
    """How a learning ends that comes to no model: the status and the text."""

    def __init__(self, status, text):
        super().__init__(text)
        self.status, self.text = status, text


class Kept(System):
    """A system whose answers are kept as they come: its rows are a tree, whose nodes are the words that are known."""

    def __init__(self, inputs, ask):
        super().__init__([{}])
        self.inputs, self.ask, self.answers = inputs, ask, []

    def keep(self, answer):
        """Keeps an answer, and stops where it clashes with one before it."""
        self.answers.append(answer)
        node, state = self.known, 0
        for x, output in zip(answer.word, answer.outs):
            if x not in node:
                node[x] = {}
                self.rows[state][x] = (len(self.rows), output)
                self.rows.append({})
            node, (state, known) = node[x], self.rows[state][x]
            if known != output:
                raise Stop(4, self.clash())

    def clash(self):
        """What is told of the first two answers that clash."""
        place, *pair = first_clash([(answer.word, answer.outs) for answer in self.answers])
        lines = [f"nondeterministic at place {place}\n"]
        for instance, run, word, outs in (self.answers[number] for number in pair):
            names = " ".join(self.inputs[x] for x in word)
            lines.append(f"instance {instance} run {run}: {names} / {' '.join(outs)}\n")
        return "".join(lines)

    def settle(self, batch):
        """Asks what isn't known of a batch, the longest words first, and those of one length in their order."""
        asked = []
        for word in sorted(dict.fromkeys(batch), key=lambda it: -len(it)):
            if not self.is_known(word):
                self.keep(Answer(0, len(self.asked), word, self.ask(word)))
                self.asked.append(word)
                asked.append(word)
        return asked

    def learned(self, outputs=None, first=()):
        """How a learning ends: its status and both streams. Where no outputs are declared, those are listed that came."""
        steps = Table(self, len(self.inputs), 1_024)
        try:
            self.settle(first)
            model = canonical(learn(steps, 0, "w"))
        except Stop as stop:
            return stop.status, "", stop.text
        came = sorted({output for answer in self.answers for output in answer.outs})
        file = {"inputs": self.inputs, "outputs": came if outputs is None else outputs, "states": model}
        numbers = f"states {len(model)}, refinements {steps.refinements}, extra 0, answers {len(self.answers)}"
        return 0, json.dumps(file, separators=(",", ":")) + "\n", f"learned: {numbers}\n"


def by_rows(rows):
    """Asks a machine."""
    return lambda word: outputs_of(rows, 0, word)


def bad_line(line):
    return Stop(6, f"bad line: instance 0: {line.hex()}\n")


def says(data):
    """A child that says bytes, whatever it is asked, and then nothing more."""

    def talk(_):
        nonlocal data
        line, data = take_line(data)
        if line is None:
            raise bad_line(data) if len(data) == LONGEST_LINE else Stop(6, ENDED)
        return line

    return talk


def plays(machine):
    """A child that serves a machine: at a line that it doesn't know it says so, and ends."""
    player, number = Player(machine), 0

    def talk(line):
        nonlocal number
        number += 1
        answer = player.reply(line)
        if answer is None:
            raise Stop(6, f"bad line: {number}\n{ENDED}")
        return answer

    return talk


def by_lines(talk, inputs, outputs=None):
    """Asks a child by lines; where no outputs are declared, they are those that come."""
    names = list(outputs or [])

    def output(line):
        name = line[4:].decode("latin-1")
        if not line.startswith(b"out ") or not is_name(name):
            raise bad_line(line)
        if name not in names:
            if outputs is not None or len(names) == MOST_FREE:
                raise bad_line(line)
            names.append(name)
        return name

    def ask(word):
        line = talk(b"reset")
        if line != b"ready":
            raise bad_line(line)
        return tuple(output(talk(b"in " + inputs[x].encode())) for x in word)

    return ask
