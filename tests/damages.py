"""Ways to damage a valid input: its bytes, its lines, and the value of a file of JSON.

All of them are drawn. A value is written by `text_of`, which takes a `Raw` text as it stands.
"""
import copy
import json

SIGNS = [b"{", b"}", b"[", b"]", b'"', b",", b":", b"\\", b"0", b"-", b" ", b"\n", b"\r", b"\t", b"\0", b"?", b"#"]
PIECES = [b"\xef\xbb\xbf", b"1e999", b".5", b"e1", b"null", b"true", b"\\ud800", b"\\u0061", b"\xff", b"\xc3\xa9", b"\xed\xa0\x80"]
LINES = [
    *(b"reset", b"quit", b"ready", b"", b" ", b"in a", b"in b", b"in ", b"out 0", b"out 1", b"out 2", b"out ", b"Ready", b"in a "),
    *(b"out 0\r", b"ready\r\r", b"in \xff", b"out \xc3\xa9", b"out " + b"x" * 64, b"out " + b"x" * 65),
    *(b"in " + b"x" * length for length in (252, 253, 300)),
    *(b"out " + b"x" * length for length in (251, 252, 300)),
]
WORDS = [b"a", b"b a", b"  a  ", b"", b" ", b"a\tb", b"a b c", b"\xff", b"a\r", b"a \r", b"x" * 300, b"\0", b"A"]
RUNS = [
    *(b"", b"{}", b"7", b"null", b'"a"', b"[]", b'{"format":3,', b'{"inputs":[]}', b'{"inputs":7}', b'{"format":3,"inputs":["a"]}'),
    *(b'{"format":3,"inputs":["a","b","c"]}', b'{"inputs":["a","a"]}', b'{"inputs":["a b"]}', b"\xff", b"\0" * 9),
    *(b'[0,0,"a","0"]', b'[0,0,"a","1"]', b'[16,1,"a b","0 1"]', b'[0,0,"",""]', b'[0,0,"a","new"]', b'["a","0"]', b'[0,0,"a","0"', b'0,"a","0"]'),
    *(b'[17,0,"a","0"]', b'[0,-1,"a","0"]', b'[0,1.0,"a","0"]', b'[0,0,"a","0 1"]', b'[0,0,"a a","0  1"]', b'[0,0,"A","0"]'),
    *(b'[0,0,"\\u0061","0"]', b'[0,0,"a","0"][0,0,"a","0"]', b' [0 , 0,"a","0"]\r', b'[0,0,"a","' + b"x" * 65 + b'"]'),
]


class Raw(str):
    """A text of JSON, or what is nearly one."""


class Members(list):
    """An object: lists of a name and a value, in which a name may stand twice."""


def nested(levels):
    return Raw("[" * levels + "]" * levels)


NUMBERS = [
    *(0, 1, 2, 3, 4, 5, 16, 17, 1_023, 1_024, 65_535, 65_536, 2**32, 2**63, 2**64 - 1, 2**64, -1, -(2**63)),
    *map(Raw, ("-0", "1.0", "1e0", "0.5", "0e9", "1e999", "-1e999", "1e-999", "01", "+1", "1.", "9" * 400, "0x1")),
]
TEXTS = [
    *("", "a", "b", "c", "0", "1", "?", "?", "a b", " a", "a ", "a a", "0 0", "0  0", "é", "\x7f", "x" * 64, "x" * 65, '"', "\\"),
    *map(Raw, (r'"\u0061"', r'"\u0030"', r'"\ud800"', r'"\udc00\ud800"', r'"\ud83d\ude00"', r'"\x"', r'"\u00e"')),
    *(Raw(r'"\n"'), Raw('"\t"'), "\0", "machine", "./machine", "kid", "serve", "nowhere", "yes"),
]
OTHERS = [
    *[None, True, False, [], Members(), Members([["a", 1]]), ["a"], [[]], [[0]], nested(125), nested(126), nested(127)] * 2,
    *map(Raw, ("NaN", "'a'", "nul", "[1,]", "{,}")),
]
NAMES = [
    *("inputs", "outputs", "states", "accepting", "targets", "table", "command", "format", "answers"),
    *["x", "y", "", "é", "Inputs", "outputs ", "key"] * 2,
]
LENGTHS = {"names": [63, 64, 65, 4_096, 4_097, 4_097], "rows": [1_024, 1_025]}
ROWS = ("states", "targets", "accepting")


def members_of(value):
    """A value with its objects as lists of members."""
    if isinstance(value, dict):
        return Members([name, members_of(it)] for name, it in value.items())
    return [members_of(it) for it in value] if isinstance(value, list) else value


def text_of(draw, value, gap):
    """The text of a value, with this white space in it; some letters of its texts stand as escapes."""
    if isinstance(value, Raw):
        return value
    if isinstance(value, Members):
        return "{" + f",{gap}".join(f"{text_of(draw, name, '')}:{gap}{text_of(draw, it, gap)}" for name, it in value) + "}"
    if isinstance(value, list):
        return "[" + f",{gap}".join(text_of(draw, it, gap) for it in value) + "]"
    if isinstance(value, str) and draw.random() < 0.03:
        return '"' + "".join(rf"\u{ord(c):04x}" for c in value) + '"'
    return json.dumps(value, ensure_ascii=False)


def written(draw, value):
    """The bytes of a value."""
    return (text_of(draw, value, draw.choice(["", "", "", " ", "\n ", "\t\r\n"])) + draw.choice(["", "\n"])).encode()


def places(root):
    """Where values stand in another one: the list that has each and its index there, and the same of what is moved with it."""
    for at, part in enumerate(root):
        holder, index = (part, 1) if isinstance(root, Members) else (root, at)
        yield holder, index, root, at
        if isinstance(holder[index], list):
            yield from places(holder[index])


def any_value(draw, *more):
    """A value of any kind, or of more kinds."""
    return copy.deepcopy(draw.choice(draw.choice([NUMBERS, TEXTS, OTHERS, *more])))


def other_value(draw, old):
    """A value in the place of another one, mostly of its kind."""
    kind = NUMBERS if isinstance(old, (int, float)) else TEXTS if isinstance(old, str) else OTHERS
    return any_value(draw, *[kind] * 4)


def extend(draw, owner, part):
    """Makes a list of names, or of rows, as long as is allowed or a little longer."""
    if isinstance(part, list) and part and all(type(it) is str for it in part):
        length = draw.choice(LENGTHS["names"])
        part += [f"n{number}" for number in range(length - len(part))]
    elif part and isinstance(owner, Members) and any(it is part for name, it in owner if name in ROWS):
        length = draw.choice(LENGTHS["rows"])
        part += [draw.choice(part)] * (length - len(part))


def change_list(draw, place):
    """Empties a list, extends it, doubles a part of it, or puts something into it."""
    holder, index, owner, _ = place
    part = holder[index]
    way = draw.randrange(6)
    if way == 0:
        part.clear()
    elif way < 3:
        extend(draw, owner, part)
    elif part and way == 3:
        part.append(draw.choice(part))
    elif not isinstance(part, Members):
        part.insert(draw.randint(0, len(part)), other_value(draw, part[0] if part else None))


def change_members(draw, members):
    """Adds a member, renames one or states one twice."""
    way = draw.randrange(4)
    if way == 0 and members:
        draw.choice(members)[0] = draw.choice(NAMES)
    elif way == 1 and members:
        name, it = draw.choice(members)
        members.insert(draw.randint(0, len(members)), [name, other_value(draw, it)])
    else:
        members.insert(draw.randint(0, len(members)), [draw.choice(NAMES), any_value(draw)])


def drawn_place(draw, root):
    """A place in a value: as often as any one that is a member of the whole, and one of a text with blanks where there are some."""
    every = list(places(root))
    outer = [place for place in every if place[2] is root]
    words = [place for place in every if type(place[0][place[1]]) is str and " " in place[0][place[1]]]
    return draw.choice(draw.choice([every, outer, words or every]))


def near(draw, root, old):
    """A value that is like another one: of those that are there already, or one beside it."""
    alike = [holder[index] for holder, index, _, _ in places(root) if type(holder[index]) is type(old)]
    found = "?" if type(old) is str and draw.random() < 0.05 else draw.choice(alike)
    if isinstance(old, int) and not isinstance(old, bool):
        return found + draw.choice([-1, 0, 0, 1])
    if isinstance(old, str) and " " in old:
        parts = old.split(" ")
        other = list(parts)
        other[draw.randrange(len(parts))] = draw.choice(parts if draw.random() < 0.5 else " ".join(alike).split())
        return draw.choice([found, " ".join(parts[:-1]), " ".join(other), " ".join(other), f"{old} {parts[0]}"])
    return found


def change_value(draw, root):
    """Damages the value of a file in one way. The value of a file is an object."""
    if not root or draw.random() < 0.2:
        change_members(draw, root)
        return
    place = holder, index, owner, at = drawn_place(draw, root)
    old, way = holder[index], draw.random()
    if way < 0.1:
        del owner[at]
    elif way < 0.2:
        other = draw.randrange(len(owner))
        owner[at], owner[other] = owner[other], owner[at]
    elif way < 0.35:
        holder[index] = other_value(draw, old)
    elif isinstance(old, list):
        change_list(draw, place)
    else:
        holder[index] = near(draw, root, old)


def change_bytes(draw, data):
    """Damages bytes in one way: some are flipped, taken out, doubled or put in."""
    begin = draw.randint(0, len(data))
    end = min(len(data), begin + draw.choice([1, 1, 2, 5, 20, len(data)]))
    way = draw.randrange(8)
    if way < 2 and data:
        place = draw.randrange(len(data))
        flipped = data[place] ^ draw.choice([1, 2, 4, 8, 16, 32, 64, 128, draw.randint(1, 255)])
        return data[:place] + bytes([flipped]) + data[place + 1 :]
    if way < 4:
        return data[:begin] + data[end:]
    if way == 4:
        return data[:end] + data[begin:end] + data[end:]
    if way == 5:
        return data[:begin] + draw.randbytes(draw.choice([1, 1, 2, 8])) + data[begin:]
    return data[:begin] + draw.choice(draw.choice([SIGNS, PIECES])) + data[begin:]


def change_lines(draw, data, pool):
    """Damages lines in one way: one is taken away, doubled, exchanged or put in."""
    lines = data.split(b"\n")
    place, way = draw.randrange(len(lines)), draw.randrange(6)
    if way == 0:
        del lines[place]
    elif way == 1:
        lines.insert(draw.randint(0, len(lines)), lines[place])
    elif way == 2:
        other = draw.randrange(len(lines))
        lines[place], lines[other] = lines[other], lines[place]
    elif way == 3:
        lines[place] = draw.choice(draw.choice([pool, lines, lines]))
    else:
        lines.insert(place, draw.choice(draw.choice([pool, lines])))
    return b"\n".join(lines)


def damaged_file(draw, value):
    """The bytes of a file of JSON, damaged in one to three ways: its value, or its bytes, or the one and then the other."""
    root, count = members_of(value), draw.choice([1, 1, 1, 2, 3])
    of_value = draw.choice([0, count, count, count, draw.randint(0, count)])
    for _ in range(of_value):
        change_value(draw, root)
    data = written(draw, root)
    if draw.random() < 0.02:
        data = draw.choice([b"", b"[]", b"null", b'"a"', b"7", b"[" + data + b"]", b"\xef\xbb\xbf" + data, data + data])
    for _ in range(count - of_value):
        data = change_bytes(draw, data)
    return data


def damaged_lines(draw, data, pool):
    """Lines, damaged in one to three ways."""
    for _ in range(draw.choice([1, 1, 1, 2, 3])):
        data = change_lines(draw, data, pool) if draw.random() < 0.7 else change_bytes(draw, data)
    return data
