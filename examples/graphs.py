"""Models as graphs, for show.py and draw.py: reading a model, the arrows between its states, and DOT, written and read."""
import collections
import html
import json
import re

Edge = collections.namedtuple("Edge", "source target output letters is_marked")
LEAST, GREATEST, LONGEST_NAME, MOST = 33, 126, 64, {"letters": 64, "outputs": 4096, "states": 1024}
START = "__start"


class Refused(Exception):
    """Why a file, a word or a machine isn't taken."""


class Model:
    """A machine, or an acceptor: then `accepting` is a list, and all outputs are None."""

    def __init__(self, inputs, rows, accepting=None):
        self.inputs, self.rows, self.accepting = inputs, rows, accepting


def model_of(file):
    """The model of what a machine file or an acceptor file holds; of others a ValueError, a KeyError or a TypeError."""
    if "targets" in file:
        model = Model(file["inputs"], [[(to, None) for to in row] for row in file["targets"]], file["accepting"])
    else:
        model = Model(file["inputs"], [[(to, output) for to, output in row] for row in file["states"]])
    count = len(model.rows)
    is_whole = all(len(row) == len(model.inputs) and all(type(to) is int and 0 <= to < count for to, _ in row) for row in model.rows)
    if not (model.rows and model.inputs and is_whole) or len(model.accepting or model.rows) != count:
        raise ValueError("rows")
    return model


def read_model(path):
    try:
        with open(path, encoding="utf-8") as file:
            return model_of(json.load(file))
    except OSError as fault:
        raise Refused(f"{path}: {fault.strerror}") from None
    except (ValueError, KeyError, TypeError):
        raise Refused(f"{path} is no machine file and no acceptor file") from None


def steps_of(model, word):
    """Returns the pairs of a state and a letter's number along a word, whose letters are named with blanks between."""
    state, steps = 0, []
    for name in word.split():
        if name not in model.inputs:
            raise Refused(f"the word's letter {name} is none of the model's: {' '.join(model.inputs)}")
        letter = model.inputs.index(name)
        steps.append((state, letter))
        state = model.rows[state][letter][0]
    return steps


def is_sink(model, state):
    return all(to == state for to, _ in model.rows[state])


def edges(model, is_folded, word=""):
    """Returns an edge for all letters of a state that lead to one state with one output; those of the word stand apart, marked.

    Where is_folded holds of a state, the commonest of its edges has `*` for its letters, if they are two or more, and stands last.
    """
    marked, found = {*steps_of(model, word)}, []
    for state, row in enumerate(model.rows):
        groups = collections.defaultdict(list)
        for number, (name, step) in enumerate(zip(model.inputs, row)):
            groups[step, (state, number) in marked].append(name)
        its = [Edge(state, to, output, names, is_marked) for ((to, output), is_marked), names in groups.items()]
        plain = [it for it in its if not it.is_marked]
        rest = max(plain, key=lambda it: len(it.letters), default=None)
        if rest and is_folded(state) and len(rest.letters) > 1 and "*" not in model.inputs:
            its.remove(rest)
            its.append(rest._replace(letters=["*"]))
        found += its
    return found


# DOT, written.


def quoted(text):
    """Text as DOT has it between quotes; lines are parted by line feeds. (An & would begin a character's name.)"""
    return '"' + text.replace("&", "&amp;").replace("\\", "\\\\").replace('"', '\\"').replace("\n", "\\n") + '"'


def wrapped(words, width):
    """Words in lines, each as long as fits."""
    lines = []
    for word in words:
        if lines and len(lines[-1]) + 1 + len(word) <= width:
            lines[-1] += " " + word
        else:
            lines.append(word)
    return lines


def label_words(edge):
    """The words of a label, `a, b -> out`; a letter is never parted from its comma, nor the arrow from the output."""
    names = [it + "," for it in edge.letters[:-1]] + edge.letters[-1:]
    return names if edge.output is None else names + [f"-> {edge.output}"]


def dot(model, word=""):
    """A model in DOT, for a reader: an edge for all letters that do the same between two states, `*` for those of a sink."""
    lines = ["digraph model {", "  rankdir=TB;", f"  inputs={quoted(' '.join(model.inputs))};"]
    if model.accepting is None:
        outputs = dict.fromkeys(output for row in model.rows for _, output in row)
        lines.append(f"  outputs={quoted(' '.join(outputs))};")
    lines += ["  node [shape=circle];", "  edge [fontname=monospace];", f'  {START}0 [shape=point, label=""];']
    for state in range(len(model.rows)):
        shape = ", shape=doublecircle" if model.accepting and model.accepting[state] else ""
        lines.append(f'  s{state} [label="{state}"{shape}];')
    lines.append(f"  {START}0 -> s0;")
    for edge in edges(model, lambda state: is_sink(model, state), word):
        label = quoted("\n".join(wrapped(label_words(edge), 36)))
        bold = ", style=bold, penwidth=3, color=red" if edge.is_marked else ""
        lines.append(f"  s{edge.source} -> s{edge.target} [label={label}{bold}];")
    return "\n".join([*lines, "}", ""])


# DOT, read.

TOKEN = re.compile(
    r'(?P<skip>\s+|//[^\n]*|/\*.*?\*/|\#[^\n]*)|(?P<text>"(?:[^"\\]|\\.)*")|(?P<arrow>->|--)'
    r"|(?P<word>[^\W\d]\w*|-?(?:\.\d+|\d+(?:\.\d*)?))|(?P<sign>[{}\[\]=;,:+])|(?P<markup><)",
    re.S,
)


class Token:
    def __init__(self, kind, text, line):
        self.kind, self.text, self.line = kind, text, line


def tokens(text):
    at, line, found = 0, 1, []
    while at < len(text):
        match = TOKEN.match(text, at)
        if not match:
            raise Refused(f"line {line}: a {text[at]!r} that DOT hasn't here (a text that isn't ended, or a name without quotes)")
        kind, it, end = match.lastgroup, match[0], match.end()
        if kind == "markup":
            depth = 1
            while depth and end < len(text):
                depth += {"<": 1, ">": -1}.get(text[end], 0)
                end += 1
            if depth:
                raise Refused(f"line {line}: a text in < and > isn't ended")
            it = text[at:end]
            found.append(Token(kind, it[1:-1], line))
        elif kind == "text":
            found.append(Token(kind, unquoted(it[1:-1]), line))
        elif kind != "skip":
            found.append(Token(kind, it, line))
        line += it.count("\n")
        at = end
    return found


def unquoted(text):
    """What stands between quotes, with its escapes for labels, but without those for quotes and ends of lines."""
    return re.sub(r"\\(.)", lambda it: {'"': '"', "\n": ""}.get(it[1], it[0]), text, flags=re.S)


class Reader:
    """Statements of a directed graph: nodes by their order, edges with their attributes and lines, and the graph's own attributes."""

    def __init__(self, text):
        self.tokens, self.at = tokens(text), 0
        self.nodes, self.edges, self.graph = {}, [], {}
        self.is_markup = set()

    def refuse(self, wanted):
        if self.at < len(self.tokens):
            token = self.tokens[self.at]
            raise Refused(f"line {token.line}: {wanted} should stand where {token.text!r} is")
        raise Refused(f"the file ends where {wanted} should stand")

    def sees(self, *texts):
        token = self.tokens[self.at] if self.at < len(self.tokens) else Token(None, None, 0)
        return token.kind in ("word", "sign", "arrow") and token.text.lower() in texts

    def takes(self, *texts):
        found = self.sees(*texts)
        self.at += found
        return found

    def name(self, wanted="a name"):
        if self.at == len(self.tokens) or self.tokens[self.at].kind not in ("word", "text", "markup"):
            self.refuse(wanted)
        token = self.tokens[self.at]
        self.at, text = self.at + 1, token.text
        while token.kind == "text" and self.takes("+"):
            if self.at == len(self.tokens) or self.tokens[self.at].kind != "text":
                self.refuse("a text in quotes")
            text += self.tokens[self.at].text
            self.at += 1
        return Token(token.kind, text, token.line)

    def attributes(self):
        found = {}
        while self.takes("["):
            while not self.takes("]"):
                key = self.name("an attribute or ']'").text
                found[key] = self.name("a value") if self.takes("=") else Token("word", "true", 0)
                self.takes(",", ";")
        return found

    def run(self):
        self.takes("strict")
        if self.sees("graph"):
            raise Refused("it is a graph without directions: a machine is a digraph")
        if not self.takes("digraph"):
            self.refuse("'digraph'")
        if not self.sees("{"):
            self.name()
        if not self.takes("{"):
            self.refuse("'{'")
        while not self.takes("}"):
            self.statement()
            self.takes(";")
        if self.at < len(self.tokens):
            self.refuse("the end of the file")
        return self

    def statement(self):
        if self.sees("subgraph", "{"):
            raise Refused(f"line {self.tokens[self.at].line}: graphs within the graph aren't read")
        if self.sees("graph", "node", "edge"):
            is_graph = self.sees("graph")
            self.at += 1
            found = self.attributes()
            if is_graph:
                self.graph.update((key, it.text) for key, it in found.items())
            return
        ends = [self.name("a state, an edge or '}'")]
        if self.takes("="):
            self.graph[ends[0].text] = self.name("a value").text
            return
        while self.sees("->", "--", ":"):
            if not self.takes("->"):
                self.refuse("'->'")
            ends.append(self.name("a state"))
        found = self.attributes()
        for it in ends:
            self.nodes.setdefault(it.text, {})
        if len(ends) == 1:
            self.nodes[ends[0].text].update(found)
        for source, target in zip(ends, ends[1:]):
            self.edges.append((source.text, target.text, found.get("label"), source.line))


def plain(text):
    """A label without the names of characters, as &amp; is one."""
    return re.sub(r"&#?\w+;", lambda it: html.unescape(it[0]), text)


def lines_of(label):
    """The lines of a label in quotes, without its escapes."""
    lines = [""]
    for it in re.findall(r"\\.|[^\\\n]|\n|\\$", label, re.S):
        if it in ("\\n", "\\l", "\\r", "\n"):
            lines.append("")
        else:
            lines[-1] += it[-1]
    return [it for it in map(plain, lines) if it.strip()]


def pair(text, line):
    """The letter and the output of `a/x`; with more than one stroke, that between blanks parts them."""
    for stroke in ("/", " / "):
        if text.count(stroke) == 1:
            letter, output = text.split(stroke)
            return letter.strip(), output.strip()
    if "/" not in text:
        raise Refused(f"line {line}: the label {text!r} has no stroke between a letter and an output")
    raise Refused(f"line {line}: the label {text!r} has several strokes, and none alone between blanks, so what the letter is isn't told")


def pairs(label, line):
    """What a label of the public form says: a letter and an output, or one such pair on each line of it."""
    if label.kind == "markup":
        cells = [plain(re.sub(r"<[^>]*>", "", it)).strip() for it in re.findall(r"(?is)<td\b[^>]*>(.*?)</td>", label.text)]
        if len(cells) == 3 and cells[1] == "/":
            return [(cells[0], cells[2])]
        parts = re.split(r"(?i)<br\s*/?>", label.text)
        texts = [it for it in (plain(re.sub(r"<[^>]*>", "", part)).strip() for part in parts) if it]
    else:
        texts = lines_of(label.text)
    if not texts:
        raise Refused(f"line {line}: the label is empty")
    return [pair(it, line) for it in texts]


def own_pairs(label, line):
    """What a label of show.py says, `a, b -> x`: names have no blanks, so each comma and the arrow are where they must be."""
    words = " ".join(lines_of(label.text)).split()
    if len(words) < 3 or words[-2] != "->" or any(not it.endswith(",") for it in words[:-3]):
        raise Refused(f"line {line}: the label {' '.join(words)!r} isn't LETTERS -> OUTPUT, as of a machine that show.py wrote")
    return [(it, words[-1]) for it in [it[:-1] for it in words[:-3]] + [words[-3]]]


def name_fault(name):
    """Why a text can't be a name in the files of Nofjand, or nothing."""
    if not name:
        return "is empty"
    wrong = [it for it in name if not LEAST <= ord(it) <= GREATEST]
    if wrong:
        return "has a blank" if wrong[0] == " " else f"has the character {wrong[0]!r}"
    return f"has more than {LONGEST_NAME} bytes" if len(name) > LONGEST_NAME else None


def renamed(names):
    """Names that may stand in a file, in place of those that may not: `_` for each wrong byte, and a number where two become one."""
    taken, found = {it for it in names if not name_fault(it)}, {}
    for name in names:
        new = name
        if name_fault(name):
            every = "".join(chr(it) if LEAST <= it <= GREATEST else "_" for it in name.encode()) or "_"
            number, new = 1, every[:LONGEST_NAME]
            while new in taken:
                number += 1
                new = every[: LONGEST_NAME - 1 - len(str(number))] + f"_{number}"
            taken.add(new)
        found[name] = new
    return found


def machine_of(text, is_renaming=False):
    """Reads a machine in DOT: of the public form, or of show.py's. Returns what a machine file holds, and the names that are new."""
    read = Reader(text).run()
    is_own = "inputs" in read.graph
    letters = plain(read.graph["inputs"].replace("\\\\", "\\")).split() if is_own else []
    outputs = plain(read.graph.get("outputs", "").replace("\\\\", "\\")).split() if is_own else []
    if is_own and "outputs" not in read.graph:
        raise Refused("it is an acceptor's graph, which has no outputs")
    letters, outputs = dict.fromkeys(letters), dict.fromkeys(outputs)
    states = [it for it in read.nodes if not it.startswith(START)]
    if not states:
        raise Refused("it has no state")
    starts = list(dict.fromkeys(target for source, target, _, _ in read.edges if source.startswith(START)))
    if len(starts) > 1:
        raise Refused(f"it has two starts, {starts[0]} and {starts[1]}")
    first = (starts or states)[0]
    states.sort(key=lambda it: it != first)
    cells, rests = {}, {}
    for source, target, label, line in read.edges:
        if source.startswith(START):
            continue
        if target.startswith(START):
            raise Refused(f"line {line}: an edge leads to the mark of the start, {target}")
        if label is None:
            raise Refused(f"line {line}: the edge from {source} to {target} has no label")
        for letter, output in (own_pairs if is_own else pairs)(label, line):
            outputs.setdefault(output)
            if is_own and letter == "*" and "*" not in letters:
                if source in rests:
                    raise Refused(f"line {line}: state {source} has * twice")
                rests[source] = (target, output, line)
                continue
            letters.setdefault(letter)
            old = cells.setdefault((source, letter), (target, output, line))
            if old[:2] != (target, output):
                raise Refused(
                    f"it isn't deterministic: by the letter {letter} state {source} leads to {old[0]} with {old[1]} (line {old[2]})"
                    f" and to {target} with {output} (line {line})"
                )
    for source, step in rests.items():
        for letter in letters:
            cells.setdefault((source, letter), step)
    missing = [(state, letter) for state in states for letter in letters if (state, letter) not in cells]
    if not letters:
        raise Refused("it has no edge with a letter")
    if missing:
        more = f", and {len(missing) - 1} more edges are missing" if len(missing) > 1 else ""
        raise Refused(f"it isn't complete: state {missing[0][0]} has no edge for the letter {missing[0][1]}{more}")
    for what, its in (("letters", letters), ("outputs", outputs), ("states", states)):
        if len(its) > MOST[what]:
            raise Refused(f"it has {len(its)} {what}, and a machine file has at most {MOST[what]}")
    new_letters, new_outputs = ({it: it for it in its} for its in (letters, outputs))
    if is_renaming:
        new_letters, new_outputs = renamed(letters), renamed(outputs)
    for what, its in (("letter", new_letters), ("output", new_outputs)):
        for name in its.values():
            if name_fault(name):
                raise Refused(f"the {what} {name!r} {name_fault(name)}, which no name may (--rename gives it another one)")
    number = {it: place for place, it in enumerate(states)}
    rows = [[[number[to], new_outputs[output]] for to, output, _ in (cells[state, letter] for letter in letters)] for state in states]
    told = [(old, new) for its in (new_letters, new_outputs) for old, new in its.items() if old != new]
    return {"inputs": list(new_letters.values()), "outputs": list(new_outputs.values()), "states": rows}, told
