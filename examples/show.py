#!/usr/bin/env python3
"""Shows a model to a reader: for each state its letters, the next state and the output. The commonest pair of these is told once,
as that of all other letters. Of an acceptor it shows whether each state accepts, and the next states.

    show.py MODEL                                  as text
    show.py MODEL --dot [--mark WORD]              as a graph in DOT; the path of a word, its letters with blanks between, is bold
    show.py --from-dot FILE [--rename]             reads a machine in DOT (s0 -> s1 [label="a/x"];) and writes a machine file;
                                                   --rename puts _ for what no name may have, and tells each new name
"""
import argparse
import collections
import json
import sys

sys.dont_write_bytecode = True
import graphs


def show(path):
    model = graphs.read_model(path)
    is_acceptor = model.accepting is not None
    for number, row in enumerate(model.rows):
        if is_acceptor:
            print(number, "accepts" if model.accepting[number] else "rejects")
        steps = [str(to) if is_acceptor else f"{to} {output}" for to, output in row]
        common, count = collections.Counter(steps).most_common(1)[0]
        for letter, step in zip(model.inputs, steps):
            if step != common or count == 1:
                print(f"{number} {letter} -> {step}")
        if count > 1:
            print(f"{number} * -> {common}")


def convert(path, is_renaming):
    try:
        with open(path, encoding="utf-8") as file:
            machine, new = graphs.machine_of(file.read(), is_renaming)
    except OSError as fault:
        raise graphs.Refused(f"{path}: {fault.strerror}") from None
    except UnicodeDecodeError:
        raise graphs.Refused(f"{path}: it isn't UTF-8") from None
    except graphs.Refused as why:
        raise graphs.Refused(f"{path}: {why}") from None
    for old, name in new:
        print(f"renamed: {old!r} to {name}", file=sys.stderr)
    print(json.dumps(machine, separators=(",", ":")))


def main():
    parser = argparse.ArgumentParser(description=__doc__, formatter_class=argparse.RawDescriptionHelpFormatter)
    parser.add_argument("model", nargs="?", metavar="MODEL")
    parser.add_argument("--dot", action="store_true", help="write a graph in DOT")
    parser.add_argument("--mark", default="", metavar="WORD", help="with --dot: make the path of this word bold")
    parser.add_argument("--from-dot", metavar="FILE", help="read a machine in DOT, and write a machine file")
    parser.add_argument("--rename", action="store_true", help="with --from-dot: give other names to those that no file may have")
    given = parser.parse_args()
    if (given.model is None) == (given.from_dot is None) or given.mark and not given.dot or given.rename and not given.from_dot:
        parser.error("either MODEL (with --dot, and with that --mark) or --from-dot FILE (with --rename)")
    if given.from_dot is not None:
        convert(given.from_dot, given.rename)
    elif given.dot:
        print(graphs.dot(graphs.read_model(given.model), given.mark), end="")
    else:
        show(given.model)


if __name__ == "__main__":
    try:
        main()
    except graphs.Refused as why:
        sys.exit(f"refused: {why}")
    except BrokenPipeError:
        sys.exit(1)
