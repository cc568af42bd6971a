"""The steps of a learning, done plainly: with an observation table or with a discrimination tree.

Both learners ask a system in batches of words, and take the same rounds. Words and machines are those of `machines.py`.
"""
import itertools
import sys

from machines import canonical, outputs_of, state_after, suite, walks

CHUNK = 512
sys.setrecursionlimit(10_000)


class System:
    """A machine that is asked in batches, and the words that were asked of it: one that begins another is never asked.

    It also has the lines of a learning's log, what was asked up to the last of them, and how many differences walks found.
    """

    def __init__(self, rows):
        self.rows, self.known = rows, {}
        self.asked, self.asked_by_suite = [], []
        self.log, self.noted, self.found_by_walks = [], 0, 0

    def is_known(self, word):
        node = self.known
        for x in word:
            if x not in node:
                return False
            node = node[x]
        return True

    def settle(self, batch):
        """Asks what isn't known of a batch, and answers the words that were asked."""
        asked = []
        for word in sorted(set(batch), key=lambda w: -len(w)):
            if not self.is_known(word):
                asked.append(word)
                node = self.known
                for x in word:
                    node = node.setdefault(x, {})
        self.asked += asked
        return asked

    def settle_suite(self, chunk):
        """Asks what isn't known of a chunk of the suite."""
        self.asked_by_suite += self.settle(chunk)

    def outputs(self, before, word):
        """The last outputs of the answer to a word after another."""
        return outputs_of(self.rows, state_after(self.rows, before), word)

    def differing(self, rows):
        """The least known word, the shorter before the longer, on which another machine differs."""
        level = [((), self.known, 0, 0)]
        while level:
            longer = []
            for word, node, p, q in level:
                for x in sorted(node):
                    (p_next, own), (q_next, other) = self.rows[p][x], rows[q][x]
                    if own != other:
                        return word + (x,)
                    longer.append((word + (x,), node[x], p_next, q_next))
            level = longer
        return None


class TooMany(Exception):
    pass


class Table:
    """An observation table whose first suffixes are the single letters."""

    def __init__(self, system, letters, most):
        self.system, self.letters, self.most = system, letters, most
        self.access, self.suffixes = [()], [(x,) for x in range(letters)]
        self.rows, self.refinements = {}, 0

    def row_words(self):
        for u in self.access:
            yield u
            for x in range(self.letters):
                yield u + (x,)

    def fill(self):
        words = dict.fromkeys(self.row_words())
        missing = [(word, end) for word in words for end in self.suffixes[len(self.rows.get(word, ())) :]]
        self.system.settle([word + end for word, end in missing])
        for word, end in missing:
            self.rows[word] = self.rows.get(word, ()) + (self.system.outputs(word, end),)

    def close(self):
        while True:
            self.fill()
            known = {self.rows[u] for u in self.access}
            extensions = (u + (x,) for u in self.access for x in range(self.letters))
            new = next((word for word in extensions if self.rows[word] not in known), None)
            if new is None:
                return
            if len(self.access) == self.most:
                raise TooMany
            self.access.append(new)

    def machine(self):
        states = {self.rows[u]: q for q, u in enumerate(self.access)}
        return [
            [(states[self.rows[u + (x,)]], self.system.outputs(u, (x,))[0]) for x in range(self.letters)]
            for u in self.access
        ]

    def settle_block(self):
        """A table has no blocks."""
        return False

    def refine(self, state, letter, suffix):
        self.suffixes.append(suffix)
        self.close()
        self.refinements += 1


class Node:
    """A leaf, which has a state, or an inner node, which has a word and a node below for each output word on it."""

    def __init__(self, state=None, word=None, below=None):
        self.state, self.word, self.below, self.is_final = state, word, below or {}, False

    def is_leaf(self):
        return self.word is None

    def states(self):
        """The states at the leaves below."""
        if self.is_leaf():
            return {self.state}
        return set().union(*(node.states() for node in self.below.values()))

    def blocks(self):
        """The highest temporary nodes: the states below each of them are a block."""
        if self.is_leaf():
            return []
        if not self.is_final:
            return [self]
        return [block for node in self.below.values() for block in node.blocks()]

    def lowest_above(self, states):
        """The lowest node that is above all of some states."""
        inside = [node for node in self.below.values() if states <= node.states()]
        return inside[0].lowest_above(states) if inside else self

    def restricted(self, states):
        """What is left of the nodes for some of the states, without those that have one child left; None for no states."""
        if self.is_leaf():
            return self if self.state in states else None
        parts = {branch: node.restricted(states) for branch, node in self.below.items()}
        left = {branch: node for branch, node in parts.items() if node is not None}
        if len(left) < 2:
            return next(iter(left.values()), None)
        return Node(word=self.word, below=left)


class Tree:
    """A discrimination tree, and a spanning tree by which each state but the first has its access word.

    A transition is a state and a letter. One by which a state was made is in `made`, with that state; each other stands at a
    node, and at a leaf it has that state as its target.
    """

    def __init__(self, system, letters, most):
        self.system, self.letters, self.most = system, letters, most
        self.access, self.root = [()], Node(state=0)
        self.made, self.outs, self.refinements = {}, {}, 0
        self.places = {(0, x): self.root for x in range(letters)}

    def transitions(self):
        return itertools.product(range(len(self.access)), range(self.letters))

    def is_open(self, transition):
        if transition in self.made:
            return False
        return transition not in self.outs or not self.places[transition].is_leaf()

    def word_of(self, transition):
        state, letter = transition
        return self.access[state] + (letter,)

    def target(self, transition):
        return self.made[transition] if transition in self.made else self.places[transition].state

    def add_state(self, transition):
        """Makes a state of a transition, and answers its leaf."""
        if len(self.access) == self.most:
            raise TooMany
        state = len(self.access)
        self.access.append(self.word_of(transition))
        self.made[transition] = state
        del self.places[transition]
        for x in range(self.letters):
            self.places[state, x] = self.root
        return Node(state=state)

    def level(self, transitions):
        """Moves open transitions down, each to the next node, by what a batch tells of them."""
        words = [(self.word_of(one), self.places[one].word) for one in transitions]
        self.system.settle([part for word, end in words for part in ([word] if end is None else [word, word + end])])
        for one in transitions:
            state, letter = one
            self.outs[one] = self.system.outputs(self.access[state], (letter,))[0]
            node = self.places[one]
            if node.is_leaf():
                continue
            branch = self.system.outputs(self.word_of(one), node.word)
            if branch in node.below:
                self.places[one] = node.below[branch]
            else:
                node.below[branch] = self.add_state(one)

    def close(self):
        while transitions := [one for one in self.transitions() if self.is_open(one)]:
            self.level(transitions)

    def machine(self):
        letters = range(self.letters)
        return [[(self.target((q, x)), self.outs[q, x]) for x in letters] for q in range(len(self.access))]

    def refine(self, state, letter, suffix):
        """Splits the leaf of the transition's target by a word on which the transition parts from it."""
        one = (state, letter)
        leaf = self.places[one]
        target = leaf.state
        own, other = (self.system.outputs(word, suffix) for word in (self.access[target], self.word_of(one)))
        below = {own: Node(state=target), other: self.add_state(one)}
        leaf.state, leaf.word, leaf.below = None, suffix, below
        self.close()
        self.refinements += 1

    def final_word(self):
        """The first block, and a word that divides it as a final discriminator, or None."""
        blocks = sorted(self.root.blocks(), key=lambda block: min(block.states()))
        class_of = {q: number for number, block in enumerate(blocks) for q in block.states()}
        for block, x in itertools.product(blocks, range(self.letters)):
            members = block.states()
            if len({self.outs[q, x] for q in members}) > 1:
                return block, (x,)
            targets = {self.target((q, x)) for q in members}
            if len({class_of.get(q, ("alone", q)) for q in targets}) > 1:
                return block, (x,) + self.root.lowest_above(targets).word
        return None

    def settle_block(self):
        """Puts a final discriminator in place of a block's root, and answers whether there was a block to settle."""
        found = self.final_word()
        if found is None:
            return False
        block, word = found
        members = sorted(block.states())
        self.system.settle([self.access[q] + word for q in members])
        groups = {}
        for q in members:
            groups.setdefault(self.system.outputs(self.access[q], word), set()).add(q)
        below = {branch: block.restricted(states) for branch, states in groups.items()}
        for one, node in self.places.items():
            if node.state in members:
                self.places[one] = block
        block.word, block.below, block.is_final = word, below, True
        self.close()
        return True


def chunks(words):
    words = iter(words)
    while chunk := list(itertools.islice(words, CHUNK)):
        yield chunk


def note(learner, phase, turn):
    """Puts a line to the log about a step that is done."""
    system = learner.system
    known = len(system.asked)
    numbers = f"asked {known - system.noted}, known {known}, refinements {learner.refinements}"
    system.log.append(f"round {turn} {phase}: states {len(learner.access)}, {numbers}")
    system.noted = known


def differing_in(learner, machine, words, phase, turn):
    """The first of some words, asked in chunks in a round, on which a machine differs from the system, cut to where it does."""
    system = learner.system
    settle = {"suite": system.settle_suite, "walks": system.settle}[phase]
    for chunk in chunks(words):
        settle(chunk)
        note(learner, phase, turn)
        for word in chunk:
            own, other = outputs_of(system.rows, 0, word), outputs_of(machine, 0, word)
            if own != other:
                place = next(i for i, (a, b) in enumerate(zip(own, other)) if a != b)
                return word[: place + 1]
    return None


def differing(learner, machine, extra, method, drawn, turn):
    """A word of a method's suite on which a machine differs from the system, or else of the walks, where some are drawn."""
    model, letters = canonical(machine), learner.letters
    word = differing_in(learner, machine, suite(model, letters, extra, method), "suite", turn)
    if word is None and drawn:
        word = differing_in(learner, machine, walks(model, letters, *drawn), "walks", turn)
        learner.system.found_by_walks += word is not None
    return word


def cut(system, rows, access, word):
    """Where the system parts from the machine, by binary search: the state, the letter after it, and the suffix."""
    low, high = 0, len(word)
    while high - low > 1:
        middle = low + (high - low) // 2
        state, rest = state_after(rows, word[:middle]), word[middle:]
        system.settle([access[state] + rest])
        if system.outputs(access[state], rest) == outputs_of(rows, state, rest):
            high = middle
        else:
            low = middle
    return state_after(rows, word[:low]), word[low], word[low + 1 :]


def learn(learner, extra, method, drawn=None):
    """The machine of a learner, after the rounds of a learning with a method's suite, and maybe with walks behind it.

    Of walks it takes how many there are, how many letters are drawn for each, and a seed. The learner has the last machine, also
    where there are too many states or too large a suite.
    """
    system, learner.last = learner.system, None
    system.noted = len(system.asked)
    learner.close()
    note(learner, "table", 0)
    for turn in itertools.count(1):
        machine = learner.last = learner.machine()
        word = system.differing(machine)
        if word is None and learner.settle_block():
            note(learner, "settling", turn)
            continue
        if word is None:
            word = differing(learner, machine, extra, method, drawn, turn)
        if word is None:
            return machine
        learner.refine(*cut(system, machine, learner.access, word))
        note(learner, "analysis", turn)
