"""What bytes say, done plainly after docs/FORMATS.md: the four kinds of file, journals, files of words, and lines of both sides.

A reader answers the value of its bytes, or raises a `Fault`, whose text is what the program tells of the first fault. Words are
tuples of letters, as in `machines.py`, but outputs are told by their names.
"""
import collections
import json
import math
import re

from views import fault as fault_of_acceptor
from views import is_list_of, is_name, is_target

DEEPEST = 127
LONGEST_LINE = 256
MOST = {"inputs": 64, "outputs": 4_096}
MOST_STATES = 1_024
MOST_COMMAND = 64
GREATEST_INSTANCE = 16
JOURNAL = b'{"format":3,'

HALF = r"\\u[dD][89abAB][0-9a-fA-F]{2}"
OTHER_HALF = r"\\u[dD][c-fC-F][0-9a-fA-F]{2}"
ESCAPE = re.compile(rf"{HALF}{OTHER_HALF}|({HALF}|{OTHER_HALF})|\\.", re.DOTALL)
STRING = re.compile(r'"(?:[^"\\]|\\.)*"', re.DOTALL)


class Fault(Exception):
    """Why bytes aren't what they are read as; its text is the reason."""


Machine = collections.namedtuple("Machine", "inputs outputs rows")
Setup = collections.namedtuple("Setup", "table command inputs outputs")
Answers = collections.namedtuple("Answers", "inputs outputs kept")
# A kept answer: who gave it and in which run, the letters' numbers, and the outputs' names.
Answer = collections.namedtuple("Answer", "instance run word outs")


def no_json(_):
    raise Fault("not JSON")


def double(text):
    """A number as a double; one that no double holds is no JSON."""
    number = float(text)
    return no_json(text) if math.isinf(number) else number


def whole(text):
    """A number with no fraction and no exponent: whole where it is digits alone, below 2^64, and else a double."""
    number = double(text)
    is_whole = "-" not in text and number < 2.0**65 and int(text) < 2**64
    return int(text) if is_whole else number


def depth(text):
    """How deep lists and objects nest in a JSON text."""
    now = most = 0
    for c in STRING.sub("", text):
        now += (c in "[{") - (c in "]}")
        most = max(most, now)
    return most


def has_half_a_pair(text):
    """Whether a JSON text has an escape for half of a surrogate pair."""
    return any(found[1] for found in ESCAPE.finditer(text))


def value(data):
    """The value of a file, as `serde_json` reads it. A whole number is an `int`, and each other one a `float`."""
    try:
        text = data.decode("utf-8")
        if depth(text) > DEEPEST:
            no_json(text)
        read = json.loads(text, parse_int=whole, parse_float=double, parse_constant=no_json)
    except ValueError:
        raise Fault("not JSON") from None
    return no_json(text) if has_half_a_pair(text) else read


def is_text(it):
    return isinstance(it, str)


def is_cell(it):
    return isinstance(it, list) and len(it) == 2 and is_target(it[0]) and is_text(it[1])


def is_whole(it):
    return type(it) is int


def is_format(it):
    return is_whole(it) and it in (1, 2)


def is_pair(it):
    return is_texts(it) and len(it) == 2


def is_four(it):
    is_long = isinstance(it, list) and len(it) == 4
    return is_long and is_whole(it[0]) and it[0] <= GREATEST_INSTANCE and is_whole(it[1]) and is_texts(it[2:])


is_texts = is_list_of(is_text)
is_rows = is_list_of(is_list_of(is_cell))


def look_at(root, shapes):
    """The values of members, of which each has its shape: else the first that hasn't is the fault."""
    if not isinstance(root, dict):
        raise Fault("shape of root")
    for field, has_shape in shapes.items():
        if field not in root or not has_shape(root[field]):
            raise Fault(f"shape of {field}")
    return [root[field] for field in shapes]


def look_at_names(field, names):
    """Sees whether a list is one of names, for inputs or for outputs."""
    if not names:
        raise Fault(f"{field}: empty list")
    if len(names) > MOST[field]:
        raise Fault(f"{field}: too many names: {len(names)}")
    for place, name in enumerate(names):
        if not is_name(name):
            raise Fault(f"{field}: bad name at {place}")
    firsts = {}
    for place, name in enumerate(names):
        if name in firsts:
            raise Fault(f"{field}: repeated name at {firsts[name]} and {place}")
        firsts[name] = place


def look_at_rows(rows, letters):
    """Sees whether rows of cells are a machine over so many letters."""
    if not rows:
        raise Fault("no state")
    if len(rows) > MOST_STATES:
        raise Fault(f"too many states: {len(rows)}")
    for q, row in enumerate(rows):
        if len(row) != letters:
            raise Fault(f"wrong number of cells at state {q}")
    for q, row in enumerate(rows):
        for x, (target, _) in enumerate(row):
            if target >= len(rows):
                raise Fault(f"no such target at state {q}, letter {x}: {target}")


def machine(data):
    """The machine of a machine file."""
    inputs, outputs, rows = look_at(value(data), {"inputs": is_texts, "outputs": is_texts, "states": is_rows})
    look_at_names("inputs", inputs)
    look_at_names("outputs", outputs)
    known = set(outputs)
    for q, row in enumerate(rows):
        for x, (_, name) in enumerate(row):
            if name not in known:
                raise Fault(f"unknown output at state {q}, letter {x}")
    look_at_rows(rows, len(inputs))
    return Machine(inputs, outputs, [[(target, name) for target, name in row] for row in rows])


def acceptor(data):
    """The names of an acceptor's letters, and the acceptor as in `views.py`."""
    root = value(data)
    reason = fault_of_acceptor(root)
    if reason:
        raise Fault(reason)
    return root["inputs"], (root["accepting"], root["targets"])


def setup(data):
    """What a setup file says: a table, or a command with its inputs and outputs, which are None where they are left out."""
    root = value(data)
    if isinstance(root, dict) and "command" in root and "table" not in root:
        look_at(root, {"inputs": is_texts, **({"outputs": is_texts} if "outputs" in root else {})})
    elif isinstance(root, dict) and "command" in root:
        raise Fault("shape of both")
    else:
        look_at(root, {})
        if not is_text(root.get("table")):
            raise Fault("shape of neither")
        return Setup(root["table"], None, None, None)
    is_command = lambda it: is_texts(it) and 1 <= len(it) <= MOST_COMMAND and it[0] != ""
    look_at(root, {"command": is_command})
    look_at_names("inputs", root["inputs"])
    if "outputs" in root:
        look_at_names("outputs", root["outputs"])
    return Setup(None, root["command"], root["inputs"], root.get("outputs"))


def word_of(text, names):
    """The names of a word that is one of a file of answers, or None where the text is none."""
    parts = text.split(" ") if text else []
    return parts if all(part in names for part in parts) else None


def answers(data):
    """The answers of an answers file, which may be a journal, with their names."""
    if data.startswith(JOURNAL):
        return journal(data)
    root = value(data)
    form, inputs, outputs = look_at(root, {"format": is_format, "inputs": is_texts, "outputs": is_texts})
    (said,) = look_at(root, {"answers": is_list_of(is_pair if form == 1 else is_four)})
    return kept_of([[0, place, *it] for place, it in enumerate(said)] if form == 1 else said, inputs, outputs)


def values_of_lines(data):
    """The values of the lines of a journal that are JSON. The others are passed over: they are empty, or were cut."""
    for line in data.split(b"\n"):
        try:
            yield value(line)
        except Fault:
            pass


def journal(data):
    """The answers of a journal: the inputs are those of its last head, the outputs the names in the order in which they come."""
    heads, runs = [{}], []
    for it in values_of_lines(data):
        (heads if isinstance(it, dict) else runs).append(it)
    (inputs,) = look_at(heads[-1], {"inputs": is_texts})
    look_at({"answers": runs}, {"answers": is_list_of(is_four)})
    outputs = [name for _, _, _, outs in runs if outs for name in outs.split(" ")]
    return kept_of(runs, inputs, list(dict.fromkeys(outputs)))


def kept_of(said, inputs, outputs):
    """The answers that lists of four say, with their names."""
    look_at_names("inputs", inputs)
    look_at_names("outputs", outputs)
    letters, known = {name: x for x, name in enumerate(inputs)}, set(outputs)
    words = [(word_of(word, letters), word_of(outs, known)) for _, _, word, outs in said]
    for place, pair in enumerate(words):
        if None in pair:
            raise Fault(f"bad word at answer {place}")
    for place, (word, outs) in enumerate(words):
        if len(word) != len(outs):
            raise Fault(f"lengths differ at answer {place}")
    kept = [Answer(*it[:2], tuple(letters[x] for x in word), tuple(outs)) for it, (word, outs) in zip(said, words)]
    return Answers(inputs, outputs, kept)


def without_return(line):
    return line[:-1] if line.endswith(b"\r") else line


def words(data, inputs):
    """The words of a file of words. A carriage return at the end of the file is dropped too, as where a line feed came behind.

    Behind the last line feed stands a word too, which is the empty one where nothing does.
    """
    letters, found = {name.encode(): x for x, name in enumerate(inputs)}, []
    for number, line in enumerate(data.split(b"\n"), 1):
        names = [name for name in without_return(line).split(b" ") if name]
        for place, name in enumerate(names, 1):
            if name not in letters:
                raise Fault(f"bad word {number}: letter {place} is no input")
        found.append(tuple(letters[name] for name in names))
    return found


def take_line(data):
    """The first line of bytes without its end, and what stands behind it; or None, and up to 256 bytes that have no line's end."""
    end = data[:LONGEST_LINE].find(b"\n")
    if end < 0:
        return None, data[:LONGEST_LINE]
    return without_return(data[:end]), data[end + 1 :]


class Player:
    """A machine that is asked by lines."""

    def __init__(self, machine):
        self.machine, self.state = machine, 0

    def reply(self, line):
        """The answer to a line, without its end, or None to one that the machine doesn't know."""
        if line == b"reset":
            self.state = 0
            return b"ready"
        names = [b"in " + name.encode() for name in self.machine.inputs]
        if line not in names:
            return None
        self.state, output = self.machine.rows[self.state][names.index(line)]
        return b"out " + output.encode()


def served(machine, data):
    """How `serve` ends on an input: its status, and both streams."""
    player, said, number = Player(machine), "", 0
    while data:
        number += 1
        line, data = take_line(data)
        if line == b"quit":
            break
        answer = player.reply(line)
        if answer is None:
            return 6, said, f"bad line: {number}\n"
        said += answer.decode() + "\n"
    return 0, said, ""
