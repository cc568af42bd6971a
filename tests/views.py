"""Acceptors, done plainly: their views, what is a view, their files, and the first fault of a file.

An acceptor is a pair of lists: for each state whether it accepts, and its targets, one for each letter. Its view is a machine
of `machines.py` with a letter more, which is `?` and stands first, and with three outputs.
"""
import json

OUTPUTS = ["yes", "no", "ok"]
YES, NO, OK = range(3)


def view(acceptor):
    accepting, targets = acceptor
    return [[(q, YES if accepts else NO), *((t, OK) for t in targets[q])] for q, accepts in enumerate(accepting)]


def is_of_a_view(state, letter, cell):
    target, output = cell
    return output == OK if letter else target == state and output != OK


def wrong_cell(rows):
    """The first cell, by state, then by letter, that is in no view; or None."""
    cells = ((q, x, cell) for q, row in enumerate(rows) for x, cell in enumerate(row))
    return next(((q, x) for q, x, cell in cells if not is_of_a_view(q, x, cell)), None)


def unview(rows):
    """The acceptor of which a machine is the view."""
    return [row[0][1] == YES for row in rows], [[target for target, _ in row[1:]] for row in rows]


def file_of(acceptor, names):
    accepting, targets = acceptor
    return {"accepting": accepting, "inputs": names, "targets": targets}


def text_of(acceptor, names):
    return json.dumps(file_of(acceptor, names), separators=(",", ":")) + "\n"


def machine_file(rows, names):
    """A file of a machine over `?` and other letters."""
    states = [[[target, OUTPUTS[output]] for target, output in row] for row in rows]
    return {"inputs": ["?", *names], "outputs": OUTPUTS, "states": states}


def is_list_of(is_one):
    return lambda value: isinstance(value, list) and all(map(is_one, value))


def is_target(value):
    return type(value) is int and 0 <= value <= 65_535


SHAPES = {
    "accepting": is_list_of(lambda value: isinstance(value, bool)),
    "inputs": is_list_of(lambda value: isinstance(value, str)),
    "targets": is_list_of(is_list_of(is_target)),
}


def is_name(text):
    return 1 <= len(text) <= 64 and all(33 <= ord(c) <= 126 for c in text)


def fault_of_names(names):
    if not names:
        return "empty list"
    if len(names) > 63:
        return f"too many names: {len(names)}"
    for place, name in enumerate(names):
        if not is_name(name):
            return f"bad name at {place}"
    for place, name in enumerate(names):
        if name in names[:place]:
            return f"repeated name at {names.index(name)} and {place}"
    return None


def fault_of_targets(targets, letters):
    for q, row in enumerate(targets):
        if len(row) != letters:
            return f"wrong number of targets at state {q}"
    for q, row in enumerate(targets):
        for x, target in enumerate(row):
            if target >= len(targets):
                return f"no such target at state {q}, letter {x}: {target}"
    return None


def fault(value):
    """The reason for which the value of a file is no acceptor, that of its first fault; or None."""
    if not isinstance(value, dict):
        return "shape of root"
    for field, has_shape in SHAPES.items():
        if field not in value or not has_shape(value[field]):
            return f"shape of {field}"
    accepting, names, targets = (value[field] for field in SHAPES)
    if fault_of_names(names):
        return f"inputs: {fault_of_names(names)}"
    if "?" in names:
        return f"reserved name at {names.index('?')}"
    if not targets:
        return "no state"
    if len(targets) > 1_024:
        return f"too many states: {len(targets)}"
    if len(accepting) != len(targets):
        return "lengths differ"
    return fault_of_targets(targets, len(names))
