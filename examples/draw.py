#!/usr/bin/env python3
"""Draws a model, or how a learning went on, as an SVG on standard output.

    draw.py MODEL [--mark WORD]    a machine file or an acceptor file; the path of a word, its letters with blanks between, is bold
    draw.py --log FILE             the states, answers and refinements of a learning, from the file of its --log

States stand in layers, by how many letters lead there at least; a state that nothing leads out of stands below all from which one
comes there. One arrow leads from a state to another, with a line of text for each output; `*` is all other letters. Where many
states lead to one, their arrows end at small circles with its number instead. Equal files give equal bytes.
"""
import argparse
import collections
import html
import math
import re
import sys

sys.dont_write_bytecode = True
import graphs

RADIUS, LINE, CHAR, MARGIN, GAP = 17, 14, 6.65, 18, 16
# A line of a label has about so many characters; so many states may lead to one by long arrows.
WIDTH, MOST_ARROWS = 36, 6
COLOURS = ("#1f4e79", "#9c2f2f", "#2e6b34", "#6a3d9a", "#8a5a00", "#00696b", "#9b2671", "#4d4d4d")
MARKED, INK = "#d40000", "#222222"
FONT = "ui-monospace,'DejaVu Sans Mono',Menlo,Consolas,monospace"
SWEEPS, STEPS, PRESSES = 30, 250, 60
MOST_DRAWN = 400


class Box:
    """What has a place in a layer: a state, the label of an arrow, or a bend of a long one."""

    def __init__(self, kind, layer, left, right, height, state=None):
        self.kind, self.layer, self.left, self.right, self.height, self.state = kind, layer, left, right, height, state
        self.x = self.y = 0.0
        self.place, self.links = 0, []


class Arrow:
    def __init__(self, source, target):
        self.source, self.target, self.lines, self.is_marked, self.boxes = source, target, [], False, []


def number(value):
    text = f"{value:.1f}"
    return text[:-2] if text.endswith(".0") else text


def pieces(word):
    """A word that is too long for a line, parted behind signs."""
    if len(word) <= WIDTH:
        return [word]
    found = [""]
    for part in re.findall(r"[^+:_.;/-]*[+:_.;/-]*", word):
        if found[-1] and len(found[-1]) + len(part) > WIDTH:
            found.append("")
        found[-1] += part
    return [it for it in found if it]


def text_lines(edge):
    """A label as lines: all but the first are set in."""
    names = [it + "," for it in edge.letters[:-1]] + edge.letters[-1:]
    words = [it for name in names for it in pieces(name)]
    if edge.output is None:
        lines = graphs.wrapped(words, WIDTH)
    else:
        first, *others = pieces(edge.output)
        lines = graphs.wrapped([*words, f"\u2192 {first}"], WIDTH)
        lines += ["  " + it for it in others]
    return [(it if place == 0 or it.startswith(" ") else " " + it, edge.is_marked) for place, it in enumerate(lines)]


def width_of(lines):
    return max(len(text) for text, _ in lines) * CHAR


def layers_of(model):
    """The layer of each state that can be reached."""
    layer, queue = {0: 0}, [0]
    for state in queue:
        for to, _ in model.rows[state]:
            if to not in layer:
                layer[to] = layer[state] + 1
                queue.append(to)
    for state in queue:
        before = [layer[it] for it in queue if it != state and any(to == state for to, _ in model.rows[it])]
        if graphs.is_sink(model, state) and len(before) <= MOST_ARROWS:
            layer[state] = max(before, default=-1) + 1
    return layer


def arrows_of(model, layer, word):
    """The arrows between states, the loops of each state, and the arrows of each that end at a small circle."""
    arrows, loops, short = {}, collections.defaultdict(list), collections.defaultdict(dict)
    before = collections.defaultdict(set)
    found = [it for it in graphs.edges(model, lambda state: True, word) if it.source in layer]
    for edge in found:
        if edge.source != edge.target:
            before[edge.target].add(edge.source)
    for edge in found:
        # (the arrows by which a state is first reached are drawn)
        is_first = layer[edge.target] > 0 and edge.source == min(before[edge.target] or {0}, key=lambda it: (layer[it], it))
        if edge.source == edge.target:
            loops[edge.source] += text_lines(edge)
        elif len(before[edge.target]) > MOST_ARROWS and not is_first:
            short[edge.source].setdefault(edge.target, []).extend(text_lines(edge))
        else:
            arrow = arrows.setdefault((edge.source, edge.target), Arrow(edge.source, edge.target))
            arrow.lines += text_lines(edge)
            arrow.is_marked |= edge.is_marked
    return list(arrows.values()), loops, short


class Drawing:
    def __init__(self, model, word=""):
        self.model, self.word = model, word
        self.layer = layers_of(model)
        self.arrows, self.loops, self.short = arrows_of(model, self.layer, word)
        if len(self.arrows) > MOST_DRAWN:
            raise graphs.Refused(f"nobody could read a picture with {len(self.arrows)} arrows, and the most is {MOST_DRAWN}")
        self.make_boxes()
        self.order()
        self.place_across()
        self.place_down()

    def side(self, state):
        """What stands at the right of a state: pieces of its loop, and of arrows that end at small circles, with their heights."""
        found = [("loop", None, self.loops[state])] if self.loops[state] else []
        return found + [("short", to, lines) for to, lines in self.short[state].items()]

    def make_boxes(self):
        self.layers = [[] for _ in range(2 * max(self.layer.values()) + 2)]
        self.states = {}
        for state in sorted(self.layer, key=lambda it: (self.layer[it], it)):
            right, height = RADIUS, 2 * RADIUS
            side = self.side(state)
            if side:
                right += 34 + max(width_of(lines) + (20 if kind == "short" else 0) for kind, _, lines in side)
                height = max(height, sum(max(len(lines) * LINE, 22) + 4 for _, _, lines in side))
            self.states[state] = self.add("state", 2 * self.layer[state], RADIUS, right, height, state)
        for arrow in self.arrows:
            source, target = self.states[arrow.source], self.states[arrow.target]
            step = -1 if source.layer > target.layer else 1
            half = width_of(arrow.lines) / 2 + 3
            label = self.add("label", source.layer + step, half, half, len(arrow.lines) * LINE + 4)
            arrow.boxes = [source, label]
            if source.layer != target.layer:
                for at in range(source.layer + 2 * step, target.layer, step):
                    arrow.boxes.append(self.add("bend", at, 3, 3, 0))
            arrow.boxes.append(target)
            for one, two in zip(arrow.boxes, arrow.boxes[1:]):
                weight = 8 if "state" not in (one.kind, two.kind) else 2
                one.links.append((two, weight))
                two.links.append((one, weight))

    def add(self, *what):
        box = Box(*what)
        self.layers[box.layer].append(box)
        return box

    # The order within the layers: by the mean of the neighbours, then by exchanging neighbours, as long as fewer arrows cross.

    def number_places(self):
        for layer in self.layers:
            for place, box in enumerate(layer):
                box.place = place

    def ends(self, box, step):
        return [it.place for it, _ in box.links if it.layer == box.layer + step]

    def crossings(self):
        total = 0
        for upper in self.layers[:-1]:
            pairs = sorted((box.place, end) for box in upper for end in self.ends(box, 1))
            total += sum(one[0] < two[0] and one[1] > two[1] for place, one in enumerate(pairs) for two in pairs[place + 1 :])
        return total

    def order(self):
        self.number_places()
        best, least = [list(it) for it in self.layers], self.crossings()
        for sweep in range(SWEEPS):
            step = -1 if sweep % 2 == 0 else 1
            for at in range(len(self.layers))[::-step]:
                layer = self.layers[at]
                keys = {}
                for box in layer:
                    ends = self.ends(box, step) or (self.ends(box, -step) if sweep > 3 else [])
                    keys[box] = math.fsum(ends) / len(ends) if ends else box.place
                layer.sort(key=lambda it: keys[it])
                self.number_places()
            self.exchange()
            now = self.crossings()
            if now < least:
                best, least = [list(it) for it in self.layers], now
        self.layers = best
        self.number_places()

    def exchange(self):
        for _ in range(4):
            is_better = False
            for layer in self.layers:
                for place in range(len(layer) - 1):
                    one, two = layer[place : place + 2]
                    now = then = 0
                    for step in (-1, 1):
                        left, right = self.ends(one, step), self.ends(two, step)
                        now += sum(a > b for a in left for b in right)
                        then += sum(a < b for a in left for b in right)
                    if then < now:
                        layer[place : place + 2] = two, one
                        one.place, two.place = place + 1, place
                        is_better = True
            if not is_better:
                return

    # The places across: bars, of which each is a state, or what one arrow has between its ends, as a straight line down. The weighted
    # squares of what they lie apart from what they lead to are made small, step by step, and after each step the bars are parted.

    def place_across(self):
        bars = [[it] for it in self.states.values()] + [arrow.boxes[1:-1] for arrow in self.arrows]
        while True:
            at = {box: place for place, bar in enumerate(bars) for box in bar}
            apart, ring = {}, None
            for layer in self.layers:
                for one, two in zip(layer, layer[1:]):
                    pair, least = (at[one], at[two]), one.right + two.left + GAP
                    apart[pair] = max(least, apart.get(pair, 0))
            order, ring = sorted_bars(len(bars), apart)
            if not ring:
                break
            long = max(ring, key=lambda it: (len(bars[it]), -it))
            bars[long : long + 1] = [[box] for box in bars[long]]
        pulls = [[] for _ in bars]
        for arrow in self.arrows:
            is_first = self.layer[arrow.target] == self.layer[arrow.source] + 1
            for one, two in zip(arrow.boxes, arrow.boxes[1:]):
                if at[one] != at[two]:
                    weight = 8.0 if "state" not in (one.kind, two.kind) else 2.0 if is_first else 1.0
                    pulls[at[one]].append((at[two], weight))
                    pulls[at[two]].append((at[one], weight))
        places, before = [0.0] * len(bars), collections.defaultdict(list)
        for (one, two), least in apart.items():
            before[two].append((one, least))
        for bar in order:
            places[bar] = max((places[one] + least for one, least in before[bar]), default=0.0)
        for _ in range(STEPS):
            wanted = []
            for bar, its in enumerate(pulls):
                weight = math.fsum(it for _, it in its)
                mean = math.fsum(places[other] * it for other, it in its) / weight if its else places[bar]
                wanted.append(0.3 * places[bar] + 0.7 * mean)
            places = parted(wanted, apart)
        for bar in order:
            places[bar] = round(places[bar])
            for one, least in before[bar]:
                places[bar] = max(places[bar], math.ceil(places[one] + least))
        least = min(places[bar] - box.left for bar, its in enumerate(bars) for box in its)
        for bar, its in enumerate(bars):
            for box in its:
                box.x = round(places[bar] - least + MARGIN)

    def place_down(self):
        y, self.tops = MARGIN + 14.0, []
        for at, layer in enumerate(self.layers):
            height = max((box.height for box in layer), default=0)
            if at:
                far = max((abs(box.x - it.x) for box in layer for it, _ in box.links if it.layer == at - 1), default=0)
                y += 18 + min(26, far / 9) if layer else 0
            self.tops.append((y, y + height))
            for box in layer:
                box.y = y + height / 2
            y += height
        self.height = y + MARGIN
        self.width = max(box.x + box.right for layer in self.layers for box in layer) + MARGIN

    # Drawing.

    def ports(self):
        """Where arrows leave and reach a state's circle: above or below, spread in the order in which they lead on."""
        at = collections.defaultdict(list)
        for arrow in self.arrows:
            for end, box, other in ((0, arrow.boxes[0], arrow.boxes[1]), (1, arrow.boxes[-1], arrow.boxes[-2])):
                at[box, other.layer > box.layer].append((other.x, end, arrow))
        found = {}
        for (box, is_below), its in at.items():
            its.sort(key=lambda it: (it[0], it[1], it[2].source, it[2].target))
            spread = min(1.5 * RADIUS, 9 * (len(its) - 1))
            for place, (_, end, arrow) in enumerate(its):
                dx = spread * (place / (len(its) - 1) - 0.5) if len(its) > 1 else 0
                dy = math.sqrt(RADIUS * RADIUS - dx * dx) * (1 if is_below else -1)
                found[arrow, end] = (box.x + dx, box.y + dy)
        return found

    def path_of(self, arrow, ports):
        source, target = arrow.boxes[0], arrow.boxes[-1]
        (x, y), (end_x, end_y) = ports[arrow, 0], ports[arrow, 1]
        is_down = target.layer >= source.layer
        # (within its state's layer an arrow goes straight, so it crosses nothing that stands at the state's right)
        parts, y = [f"M{number(x)} {number(y)}"], self.tops[source.layer][is_down]
        parts.append(f"L{number(x)} {number(y)}")
        last_y = self.tops[target.layer][not is_down or source.layer == target.layer]
        if source.layer == target.layer:
            # (both ends come from above: the line enters its label at one side of the top, and leaves it at the other)
            label, way = arrow.boxes[1], 1 if end_x > x else -1
            top, off = label.y - label.height / 2, min(label.left / 2, 24)
            half, one, two = number((y + top) / 2), number(label.x - way * off), number(label.x + way * off)
            parts.append(f"C{number(x)} {half} {one} {half} {one} {number(top)}")
            parts.append(f"M{two} {number(top)}C{two} {half} {number(end_x)} {half} {number(end_x)} {number(y)}")
            parts.append(f"L{number(end_x)} {number(end_y + 6)}")
            return "".join(parts), (end_x, end_y, -1)
        stops = []
        for box in arrow.boxes[1:-1]:
            top, bottom = self.tops[box.layer] if box.kind == "bend" else (box.y - box.height / 2, box.y + box.height / 2)
            stops.append((box.x, top, bottom) if is_down else (box.x, bottom, top))
        room = -7 if is_down else 7
        stops.append((end_x, last_y + room, end_y + room))
        for to_x, near, far in stops:
            if to_x == x:
                parts.append(f"L{number(x)} {number(near)}")
            else:
                half = (y + near) / 2
                parts.append(f"C{number(x)} {number(half)} {number(to_x)} {number(half)} {number(to_x)} {number(near)}")
            if far != near:
                parts.append(f"L{number(to_x)} {number(far)}")
            x, y = to_x, far
        return "".join(parts), (end_x, end_y, 1 if is_down else -1)

    def svg(self, title):
        out, ports = [], self.ports()
        draw = out.append
        for arrow in sorted(self.arrows, key=lambda it: it.is_marked):
            colour = MARKED if arrow.is_marked else COLOURS[arrow.source % len(COLOURS)]
            width = 2.6 if arrow.is_marked else 1.3
            path, (x, y, way) = self.path_of(arrow, ports)
            draw(f'<path d="{path}" fill="none" stroke="{colour}" stroke-width="{width}"/>')
            draw(head(x, y, 0, way, colour))
        for arrow in self.arrows:
            label = arrow.boxes[1]
            colour = COLOURS[arrow.source % len(COLOURS)]
            left, top = label.x - label.left, label.y - label.height / 2
            draw(box(left, top, 2 * label.left, label.height))
            out += text(label.x - label.left + 3, label.y, arrow.lines, colour)
        for state, at in self.states.items():
            self.draw_side(state, at, out)
            draw(circle(at.x, at.y, RADIUS, "#eef3f8" if not graphs.is_sink(self.model, state) else "#e4e4e4"))
            if self.model.accepting and self.model.accepting[state]:
                draw(circle(at.x, at.y, RADIUS - 3.5, "none"))
            draw(f'<text x="{number(at.x)}" y="{number(at.y + 5)}" font-size="14" text-anchor="middle" fill="{INK}">{state}</text>')
        start = self.states[0]
        draw(f'<circle cx="{number(start.x)}" cy="{number(start.y - RADIUS - 17)}" r="3.5" fill="{INK}"/>')
        draw(f'<path d="M{number(start.x)} {number(start.y - RADIUS - 17)}V{number(start.y - RADIUS - 6)}" stroke="{INK}" stroke-width="1.3"/>')
        draw(head(start.x, start.y - RADIUS, 0, 1, INK))
        return picture(self.width, self.height, title, out)

    def draw_side(self, state, at, out):
        side, colour = self.side(state), COLOURS[state % len(COLOURS)]
        heights = [max(len(lines) * LINE, 22) + 4 for _, _, lines in side]
        y = at.y - math.fsum(heights) / 2
        for (kind, to, lines), height in zip(side, heights):
            middle = y + height / 2
            is_marked = any(it for _, it in lines)
            ink, width = (MARKED, 2.6) if is_marked else (colour, 1.3)
            off = max(-11.0, min(11.0, middle - at.y))
            if kind == "loop":
                high, low = off - 5, off + 5
                one, two = (at.x + math.sqrt(RADIUS * RADIUS - it * it) for it in (high, low))
                far = at.x + RADIUS + 26
                out.append(
                    f'<path d="M{number(one)} {number(at.y + high)}C{number(far)} {number(middle - 18)} {number(far)} {number(middle + 18)}'
                    f' {number(two + 5)} {number(at.y + low + 2)}" fill="none" stroke="{ink}" stroke-width="{width}"/>'
                )
                out.append(head(two, at.y + low, -1, 0.4, ink))
                left = at.x + RADIUS + 24
            else:
                one = at.x + math.sqrt(RADIUS * RADIUS - off * off)
                end = at.x + RADIUS + 26
                out.append(
                    f'<path d="M{number(one)} {number(at.y + off)}C{number(one + 8)} {number(middle)} {number(one + 8)} {number(middle)}'
                    f' {number(end - 6)} {number(middle)}" fill="none" stroke="{ink}" stroke-width="{width}"/>'
                )
                out.append(head(end, middle, 1, 0, ink))
                out.append(f'<circle cx="{number(end + 10)}" cy="{number(middle)}" r="10" fill="#ffffff" stroke="{ink}" stroke-dasharray="3 2"/>')
                out.append(
                    f'<text x="{number(end + 10)}" y="{number(middle + 4)}" font-size="10.5" text-anchor="middle" fill="{ink}">{to}</text>'
                )
                left = end + 25
            out += text(left, middle, lines, colour)
            y += height


def sorted_bars(count, apart):
    """Returns the bars from left to right, and those of a ring of which each is left of the next, if there is one."""
    after, left = [[] for _ in range(count)], [0] * count
    for one, two in apart:
        after[one].append(two)
        left[two] += 1
    order = [it for it in range(count) if not left[it]]
    for one in order:
        for two in after[one]:
            left[two] -= 1
            if not left[two]:
                order.append(two)
    if len(order) == count:
        return order, []
    rest = {*range(count)} - {*order}
    way, seen = [min(rest)], {}
    while way[-1] not in seen:
        seen[way[-1]] = len(way) - 1
        # (each of the rest has one of the rest before it)
        way.append(min(one for one, two in apart if two == way[-1] and one in rest))
    return order, way[seen[way[-1]] : -1]


def parted(wanted, apart):
    """Places that are near to the wanted ones, in the sum of the squares, where each pair lies apart as far as it must."""
    places, pressed = list(wanted), dict.fromkeys(apart, 0.0)
    for _ in range(PRESSES):
        most = 0.0
        for pair, least in apart.items():
            one, two = pair
            now = max(0.0, pressed[pair] + (least - places[two] + places[one]) / 2)
            change = now - pressed[pair]
            if change:
                pressed[pair] = now
                places[one] -= change
                places[two] += change
                most = max(most, abs(change))
        if most < 0.2:
            break
    return places


def head(x, y, dx, dy, colour):
    """An arrow's head with its tip at x, y, that points along dx, dy."""
    size = math.sqrt(dx * dx + dy * dy)
    dx, dy = dx / size, dy / size
    back_x, back_y = x - 8 * dx, y - 8 * dy
    points = ((x, y), (back_x - 3.6 * dy, back_y + 3.6 * dx), (back_x + 3.6 * dy, back_y - 3.6 * dx))
    return f'<path d="M{"L".join(f"{number(one)} {number(two)}" for one, two in points)}Z" fill="{colour}"/>'


def circle(x, y, radius, fill):
    return f'<circle cx="{number(x)}" cy="{number(y)}" r="{number(radius)}" fill="{fill}" stroke="{INK}" stroke-width="1.4"/>'


def box(left, top, width, height):
    return f'<rect x="{number(left)}" y="{number(top)}" width="{number(width)}" height="{number(height)}" fill="#ffffff"/>'


def text(x, middle, lines, colour):
    """Lines of a label, of which the middle stands at a height; textLength holds them to the width that was planned."""
    found = []
    for place, (line, is_marked) in enumerate(lines):
        y = middle + (place - len(lines) / 2) * LINE + 10.5
        said = line.lstrip(" ")
        left = x + (len(line) - len(said)) * CHAR
        ink = f'fill="{MARKED}" font-weight="bold"' if is_marked else f'fill="{colour}"'
        found.append(
            f'<text x="{number(left)}" y="{number(y)}" font-size="11" textLength="{number(len(said) * CHAR)}"'
            f' lengthAdjust="spacingAndGlyphs" {ink}>{html.escape(said)}</text>'
        )
    return found


def picture(width, height, title, out):
    size = f'width="{number(math.ceil(width))}" height="{number(math.ceil(height))}"'
    view = f'viewBox="0 0 {number(math.ceil(width))} {number(math.ceil(height))}"'
    first = f'<svg xmlns="http://www.w3.org/2000/svg" {size} {view} font-family="{FONT}">'
    return "\n".join([first, f"<title>{html.escape(title)}</title>", '<rect width="100%" height="100%" fill="#ffffff"/>', *out, "</svg>", ""])


# A learning over time.

LOG_TITLE = "A learning, step by step"
STEP = re.compile(r"round (\d+) (\w+): states (\d+), asked (\d+), known (\d+), refinements (\d+)")


def chart(lines, title):
    """The states, answers and refinements of a log by its steps, one above the other; a mark where a round begins."""
    steps = [match for match in map(STEP.match, lines) if match]
    if not steps:
        raise graphs.Refused("the log has no line of a step: round R PHASE: states N, asked A, known K, refinements M")
    across, high, left = 640, 110, 70
    out, top = [], MARGIN + 24.0
    place = lambda at: left + across * (at + 0.5) / len(steps)
    rounds = [at for at, it in enumerate(steps) if at == 0 or it[1] != steps[at - 1][1]]
    for name, group, colour in (("states", 3, COLOURS[0]), ("known answers", 5, COLOURS[2]), ("refinements", 6, COLOURS[1])):
        values = [int(it[group]) for it in steps]
        most = max(max(values), 1)
        height = lambda value: top + high * (1 - value / most)
        out.append(f'<text x="{left}" y="{number(top - 8)}" font-size="12" font-weight="bold" fill="{colour}">{name}</text>')
        for value in (0, most):
            y = number(height(value))
            out.append(f'<path d="M{left} {y}H{left + across}" stroke="#cccccc" stroke-width="1"/>')
            out.append(f'<text x="{left - 6}" y="{number(height(value) + 4)}" font-size="11" text-anchor="end" fill="{INK}">{value}</text>')
        for at in rounds[1:]:
            x = number((place(at) + place(at - 1)) / 2)
            out.append(f'<path d="M{x} {number(top)}V{number(top + high)}" stroke="#dddddd" stroke-width="1" stroke-dasharray="3 3"/>')
        line = "".join(f"{'L' if at else 'M'}{number(place(at))} {number(height(value))}" for at, value in enumerate(values))
        out.append(f'<path d="{line}" fill="none" stroke="{colour}" stroke-width="1.8"/>')
        if len(steps) <= 120:
            for at, value in enumerate(values):
                out.append(f'<circle cx="{number(place(at))}" cy="{number(height(value))}" r="2.4" fill="{colour}"/>')
        top += high + 44
    last = -100.0
    for at in rounds:
        if place(at) - last >= 26:
            last = place(at)
            out.append(f'<text x="{number(last)}" y="{number(top - 26)}" font-size="11" text-anchor="middle" fill="{INK}">{steps[at][1]}</text>')
    out.append(f'<text x="{left - 6}" y="{number(top - 26)}" font-size="11" text-anchor="end" fill="{INK}">round</text>')
    ends = [it for it in lines if it and not STEP.match(it)][-1:]
    for line in ends:
        out.append(f'<text x="{left}" y="{number(top - 4)}" font-size="11" fill="{INK}">{html.escape(clean(line[:95]))}</text>')
    return picture(left + across + MARGIN, top + 6, title, out)


def clean(line):
    return re.sub(r"[^ -~]", "?", line)


def picture_of(model, word=""):
    return Drawing(model, word).svg(f"A model of {len(model.rows)} states")


def drawn(path, word=""):
    return picture_of(graphs.read_model(path), word)


def main():
    parser = argparse.ArgumentParser(description=__doc__, formatter_class=argparse.RawDescriptionHelpFormatter)
    parser.add_argument("model", nargs="?", metavar="MODEL")
    parser.add_argument("--mark", default="", metavar="WORD", help="make the path of this word bold")
    parser.add_argument("--log", metavar="FILE", help="draw a learning from its log")
    given = parser.parse_args()
    if (given.model is None) == (given.log is None) or given.log and given.mark:
        parser.error("either MODEL (with --mark) or --log FILE")
    if given.log is None:
        print(drawn(given.model, given.mark), end="")
        return
    try:
        with open(given.log, encoding="utf-8", errors="replace") as file:
            print(chart(file.read().split("\n"), LOG_TITLE), end="")
    except OSError as fault:
        raise graphs.Refused(f"{given.log}: {fault.strerror}") from None


if __name__ == "__main__":
    try:
        main()
    except graphs.Refused as why:
        sys.exit(f"refused: {why}")
    except BrokenPipeError:
        sys.exit(1)
