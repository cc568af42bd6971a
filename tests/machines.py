"""Machines, done plainly: their outputs, their canonical form, the suites of three methods, and walks.

A word is a tuple of letters, and a machine a list of rows: for each state a pair for each letter, the next state and the
output.
"""
import functools
import itertools
import os
import sys

sys.path.append(os.path.join(os.path.dirname(os.path.dirname(os.path.abspath(__file__))), "bench"))
from drawn import words as drawn_numbers

GREATEST_SUITE = 8_388_608


class TooLarge(Exception):
    pass


def outputs_of(rows, q, word):
    outs = []
    for x in word:
        q, y = rows[q][x]
        outs.append(y)
    return tuple(outs)


def state_after(rows, word):
    q = 0
    for x in word:
        q = rows[q][x][0]
    return q


def canonical(rows):
    """The reachable states, those taken for one that agree on all words, numbered breadth first in letter order."""
    block = [tuple(y for _, y in row) for row in rows]
    while True:
        finer = [(block[q], tuple(block[t] for t, _ in row)) for q, row in enumerate(rows)]
        numbers = {name: i for i, name in enumerate(dict.fromkeys(finer))}
        if len(numbers) == len(set(block)):
            break
        block = [numbers[name] for name in finer]
    order, states = {block[0]: 0}, [0]
    for q in states:
        for target, _ in rows[q]:
            if block[target] not in order:
                order[block[target]] = len(order)
                states.append(target)
    return [[(order[block[t]], y) for t, y in rows[q]] for q in states]


def access_words(rows):
    words, states = {0: ()}, [0]
    for q in states:
        for x, (target, _) in enumerate(rows[q]):
            if target not in words:
                words[target] = words[q] + (x,)
                states.append(target)
    return [words[q] for q in range(len(rows))]


def separating_word(rows, p, q):
    seen, level = {(p, q)}, [((), p, q)]
    while level:
        longer = []
        for word, p, q in level:
            for x, ((p_next, one), (q_next, other)) in enumerate(zip(rows[p], rows[q])):
                if one != other:
                    return word + (x,)
                if (p_next, q_next) not in seen:
                    seen.add((p_next, q_next))
                    longer.append((word + (x,), p_next, q_next))
        level = longer
    raise ValueError("the states are alike")


def separating_words(rows):
    """Words that tell all states apart: for each pair, in order, that those before don't, a least one that does."""
    ends, told = [], [()] * len(rows)
    for p, q in itertools.combinations(range(len(rows)), 2):
        if told[p] == told[q]:
            end = separating_word(rows, p, q)
            ends.append(end)
            told = [outs + outputs_of(rows, q, end) for q, outs in enumerate(told)]
    return ends


def middles(letters, lengths):
    """The words of some lengths, in shortlex order."""
    for length in lengths:
        yield from itertools.product(range(letters), repeat=length)


class Ends:
    """Words that separate the states of a machine, and which of them to ask behind a word that leads to a state."""

    def __init__(self, rows, words):
        self.rows, self.all, self.states = rows, words, range(len(rows))
        self.outs = {end: [outputs_of(rows, q, end) for q in self.states] for end in words}

    def separates(self, end, p, q):
        return self.outs[end][p] != self.outs[end][q]

    def separated(self, end, q, states):
        """The number of the states that a word separates from one."""
        outs = self.outs[end]
        return sum(outs[p] != outs[q] for p in states)

    def identification(self, q):
        """For each other state, by number, that no word of the list separates from this one: the first word that does."""
        chosen = []
        for p in self.states:
            if p != q and not any(self.separates(end, p, q) for end in chosen):
                chosen.append(next(end for end in self.all if self.separates(end, p, q)))
        return chosen

    def greedy(self, q):
        """While other states are left: the word that separates most of them from this one, the first of the best."""
        chosen, left = [], [p for p in self.states if p != q]
        while left:
            best = max(self.all, key=lambda end: self.separated(end, q, left))
            chosen.append(best)
            left = [p for p in left if not self.separates(best, p, q)]
        return chosen

    def reached(self, q, most):
        """The states that words of one letter or more lead to, up to so many letters."""
        states, level = set(), {q}
        for _ in range(most):
            level = {target for p in level for target, _ in self.rows[p]}
            states |= level
        return states

    def towards(self, set_of, q, most):
        """A state's set, and the first word of the set of each other state that it reaches which separates both."""
        chosen = set(set_of(q))
        for r in self.reached(q, most) - {q}:
            chosen.add(next(end for end in set_of(r) if self.separates(end, r, q)))
        return [end for end in self.all if end in chosen]


def w_suite(rows, letters, extra):
    """The suite of the W-method (Vasilevskii 1973, Chow 1978)."""
    ends = separating_words(rows)
    for start in access_words(rows):
        for middle in middles(letters, range(extra + 2)):
            for end in [(), *ends]:
                yield start + middle + end


def short_first(rows, letters, extra):
    """Each access word with each middle word, those with the longest middle words last, and the length of the middle word."""
    for lengths in (range(extra + 1), [extra + 1]):
        for start in access_words(rows):
            for middle in middles(letters, lengths):
                yield start + middle, len(middle)


def wp_suite(rows, letters, extra):
    """The suite of the Wp-method (Fujiwara, von Bochmann, Khendek, Amalou and Ghedamsi 1991)."""
    ends = Ends(rows, separating_words(rows))
    set_of = functools.cache(ends.identification)
    for front, length in short_first(rows, letters, extra):
        behind = ends.all if length <= extra else set_of(state_after(rows, front))
        for end in [(), *behind]:
            yield front + end


def h_suite(rows, letters, extra):
    """A suite after the H-method (Dorofeeva, El-Fakih and Koufareva 2005), by states and lengths alone."""
    ends = Ends(rows, separating_words(rows))
    set_of = functools.cache(ends.greedy)
    towards = functools.cache(lambda q, most: ends.towards(set_of, q, most))
    for front, length in short_first(rows, letters, extra):
        behind = towards(state_after(rows, front), extra + 1 - length) if length else ends.all
        for end in [(), *behind]:
            yield front + end


SUITES = {"w": w_suite, "wp": wp_suite, "h": h_suite}


def is_within(states, letters, extra):
    """Whether the suites of so many states aren't too large; the limit is that of the W-method's."""
    return states**2 * sum(letters**n for n in range(extra + 2)) <= GREATEST_SUITE


def suite(rows, letters, extra, method):
    """The words of a method's suite for so many extra states, in order."""
    if not is_within(len(rows), letters, extra):
        raise TooLarge
    yield from SUITES[method](rows, letters, extra)


def word_by(words, number):
    """The word that a number says among some; of none the empty word."""
    return words[number % len(words)] if words else ()


def walks(rows, letters, count, length, seed):
    """Words drawn by a seed: each goes to a state of a minimal machine, to each in turn, on by drawn letters, and ends with a
    separating word. The numbers begin behind those of machines with fewer states."""
    access, ends = access_words(rows), separating_words(rows)
    numbers = drawn_numbers(seed, len(rows) * count * (length + 1))
    for k in range(count):
        middle = tuple(next(numbers) % letters for _ in range(length))
        yield word_by(access, k) + middle + word_by(ends, next(numbers))
