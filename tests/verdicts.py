"""What a model and answers come to, by the definitions, done plainly and slowly, for each method.

A word is a tuple of letters, and an answer a pair of lists, its letters and its outputs. Nothing here is of `machines.py`.
"""
import itertools

GREATEST_SUITE = 8_388_608


def run(rows, q, word):
    """The state after a word, and the outputs on the way."""
    outs = []
    for x in word:
        q, y = rows[q][x]
        outs.append(y)
    return q, outs


def answer(rows, word):
    return run(rows, 0, word)[1]


def words_of(letters, length):
    return itertools.product(range(letters), repeat=length)


def words_up_to(letters, longest):
    for length in range(longest + 1):
        yield from words_of(letters, length)


def difference(first, second):
    """The first place at which two lists differ."""
    return next((i for i, (a, b) in enumerate(zip(first, second)) if a != b), None)


def clash(first, second):
    """The place at which two answers clash."""
    place = difference(first[1], second[1])
    same = place is not None and first[0][: place + 1] == second[0][: place + 1]
    return place if same else None


def first_clash(answers):
    """The first answer that clashes with a clear one: the first place, the earliest clear answer there, and its number."""
    clear = []
    for second, late in enumerate(answers):
        places = [(clash(answers[first], late), first) for first in clear]
        places = [pair for pair in places if pair[0] is not None]
        if places:
            place, first = min(places)
            return place, first, second
        clear.append(second)
    return None


def separates(rows, p, q, word):
    return run(rows, p, word)[1] != run(rows, q, word)[1]


def separating_word(letters, rows, p, q):
    return next((w for w in words_up_to(letters, len(rows)) if separates(rows, p, q, w)), None)


def separating_words(letters, rows):
    ends = []
    for p, q in itertools.combinations(range(len(rows)), 2):
        if not any(separates(rows, p, q, end) for end in ends):
            ends.append(separating_word(letters, rows, p, q))
    return ends


def identification(rows, ends, q):
    chosen = []
    for p in range(len(rows)):
        if p != q and not any(separates(rows, p, q, end) for end in chosen):
            chosen.append(next(end for end in ends if separates(rows, p, q, end)))
    return chosen


def w_suite(letters, rows, access, extra):
    ends = separating_words(letters, rows)
    for q in range(len(rows)):
        for middle in words_up_to(letters, extra + 1):
            for end in [(), *ends]:
                yield access[q] + middle + end


def wp_suite(letters, rows, access, extra):
    ends = separating_words(letters, rows)
    for q in range(len(rows)):
        for middle in words_up_to(letters, extra):
            for end in [(), *ends]:
                yield access[q] + middle + end
    last = [identification(rows, ends, q) for q in range(len(rows))]
    for q in range(len(rows)):
        for middle in words_of(letters, extra + 1):
            front = access[q] + middle
            for end in [(), *last[run(rows, 0, front)[0]]]:
                yield front + end


def greedy(rows, ends, q):
    """The numbers of words that are chosen for a state, each the first that separates the most of those that are left."""
    chosen, left = [], [p for p in range(len(rows)) if p != q]
    while left:
        counts = [sum(separates(rows, p, q, end) for p in left) for end in ends]
        chosen.append(counts.index(max(counts)))
        left = [p for p in left if not separates(rows, p, q, ends[chosen[-1]])]
    return chosen


def stand_behind(letters, rows, ends, own, q, left):
    """The numbers of words behind what leads to a state, where so many letters are left: its own, and for each word of these
    letters the first of those of the state that it leads to whose word separates the two."""
    found = set(own[q])
    for onward in words_up_to(letters, left):
        r = run(rows, q, onward)[0]
        found.update([i for i in own[r] if separates(rows, r, q, ends[i])][:1])
    return sorted(found)


def h_suite(letters, rows, access, extra):
    ends = separating_words(letters, rows)
    own = [greedy(rows, ends, q) for q in range(len(rows))]
    shorter, longest = list(words_up_to(letters, extra)), list(words_of(letters, extra + 1))
    states = range(len(rows))
    for p, middle in [*itertools.product(states, shorter), *itertools.product(states, longest)]:
        front, left = access[p] + middle, extra + 1 - len(middle)
        q = run(rows, 0, front)[0]
        behind = stand_behind(letters, rows, ends, own, q, left) if middle else range(len(ends))
        for end in [(), *(ends[i] for i in behind)]:
            yield front + end


def prefixes(answers):
    """What is told: the prefixes of the answers' words."""
    return {tuple(word[:length]) for word, _ in answers for length in range(len(word) + 1)} | {()}


def missing_of(suite):
    """The first word of a suite that isn't told."""
    return lambda letters, rows, access, told, extra: next(
        (word for word in suite(letters, rows, access, extra) if word not in told), None
    )


def pairs(letters, access, extra):
    """The pairs of words that are to be apart where their states differ, in order."""
    states = range(len(access))
    for q in states:
        for middle in words_up_to(letters, extra + 1):
            for p in states:
                yield access[p], access[q] + middle
    for q in states:
        for middle in words_of(letters, extra + 1):
            for i, j in itertools.combinations(range(1, extra + 2), 2):
                yield access[q] + middle[:i], access[q] + middle[:j]


def suffixes(told):
    """For each word that is told, what is told behind it."""
    behind = {}
    for word in told:
        for length in range(len(word) + 1):
            behind.setdefault(word[:length], set()).add(word[length:])
    return behind


def missing_by_apartness(letters, rows, access, told, extra):
    """The word that is told of answers that don't cover the model, or None where they do."""
    fronts = [access[q] + middle for q in range(len(rows)) for middle in words_up_to(letters, extra + 1)]
    untold = [word for word in fronts if word not in told]
    if untold:
        return min(untold, key=lambda word: (len(word), word))
    behind = suffixes(told)
    for u, v in pairs(letters, access, extra):
        p, q = (run(rows, 0, word)[0] for word in (u, v))
        if p != q and not any(separates(rows, p, q, word) for word in behind[u] & behind[v]):
            end = separating_word(letters, rows, p, q)
            return u + end if u + end not in told else v + end
    return None


MISSING = {"w": missing_of(w_suite), "wp": missing_of(wp_suite), "h": missing_by_apartness}


def access_words(letters, rows):
    """The least word to each state that is reached."""
    access = {}
    for word in words_up_to(letters, len(rows)):
        access.setdefault(run(rows, 0, word)[0], word)
    return access


def verdict(letters, rows, answers, extra, method):
    """The line of a verdict on answers of which nothing clashes, and the status."""
    states = range(len(rows))
    access = access_words(letters, rows)
    for q in states:
        if q not in access:
            return f"no: state {q} is unreached", 1
    for p, q in itertools.combinations(states, 2):
        if separating_word(letters, rows, p, q) is None:
            return f"no: states {p} and {q} are alike", 1
    for number, (word, outs) in enumerate(answers):
        if answer(rows, word) != outs:
            return f"no: answer {number} differs at place {difference(answer(rows, word), outs)}", 1
    size = len(rows) ** 2 * sum(letters**length for length in range(extra + 2))
    if size > GREATEST_SUITE:
        return f"suite too large: states {len(rows)}, extra {extra}, number {size}", 7
    word = MISSING[method](letters, rows, access, prefixes(answers), extra)
    if word is not None:
        return f'no: word "{text(word, "a")}" is missing', 1
    return f"yes: states {len(rows)}, extra {extra}, answers {len(answers)}", 0


def text(numbers, first):
    """A word by its names: letters from 'a' on, outputs from '0' on."""
    return " ".join(chr(ord(first) + n) for n in numbers)


def expected(letters, rows, answers, origins, extra, method):
    """The status and the texts of both streams. Answers of one machine don't clash."""
    are_of_model = all(answer(rows, word) == outs for word, outs in answers)
    found = None if are_of_model else first_clash(answers)
    if found:
        lines = [f"nondeterministic at place {found[0]}"]
        for number in found[1:]:
            word, outs = answers[number]
            instance, run_number = origins[number]
            lines.append(f'instance {instance} run {run_number}: {text(word, "a")} / {text(outs, "0")}')
        return 4, "", "\n".join(lines) + "\n"
    line, status = verdict(letters, rows, answers, extra, method)
    return (status, "", line + "\n") if status == 7 else (status, line + "\n", "")
