"""Machines and answers that were worked out, which don't cover them: most of them do by some wrong definition."""
from machines import outputs_of

THREE_STATES = [[(1, 0), (0, 0)], [(2, 1), (1, 1)], [(0, 1), (2, 0)]]


def word(text):
    """A word of letters from 'a' on; '-' is the empty one."""
    return tuple(ord(x) - ord("a") for x in text.strip("-"))


def answers_of(rows, words):
    return [(list(word(text)), list(outputs_of(rows, 0, word(text)))) for text in words.split()]


# Of each the number of letters, the machine, the extra states, the words that were asked, the one that is missing, and another
# machine, within the bound on states, that gives the same answers.
WORKED = [
    # Enough for one who compares with the access words only what has at most as many letters behind one as there are extra
    # states; or who takes for told what the machine itself gives behind the other word.
    (1, [[(1, 0)], [(0, 1)]], 0, "aa", "aaa", [[(1, 0)], [(1, 1)]]),
    # Enough for one who takes for told what the machine itself gives behind the access word.
    (
        2,
        [[(1, 0), (2, 0)], [(0, 0), (0, 1)], [(1, 0), (0, 1)]],
        0,
        "aab abb baab bbb",
        "bab",
        [[(1, 0), (1, 0)], [(2, 0), (0, 1)], [(0, 0), (0, 0)]],
    ),
    # Enough for one who compares with the access words alone, and not along a word.
    (
        2,
        [[(1, 1), (2, 0)], [(2, 0), (2, 0)], [(2, 0), (0, 0)]],
        1,
        "aaba abba baba aaaba ababa baaba bbaa bbaba bbbba",
        "bbba",
        [[(1, 1), (2, 0)], [(2, 0), (2, 0)], [(2, 0), (3, 0)], [(1, 1), (3, 0)]],
    ),
    # Enough for one who compares along a word only what is a letter apart.
    (
        2,
        [[(0, 1), (1, 1)], [(2, 0), (2, 1)], [(3, 1), (2, 1)], [(2, 0), (0, 1)]],
        2,
        """aaba abbaa bbabaa bbbbaa bababaa babbbaa baaaabaa baaabbaa baababa baabbbaa aaaaa aabbaa abaaa bbaaaa
        bbbabaa babaaaa babbabaa baaaaaaa baaababaa baabaaaa baababbaa baabbaaa""",
        "bbbaa",
        [[(0, 1), (1, 1)], [(2, 0), (2, 1)], [(3, 1), (2, 1)], [(4, 0), (0, 1)], [(3, 1), (5, 1)], [(4, 1), (2, 1)]],
    ),
    # Of the two words that are both missing, `baa` and `aaa`, the first one of the pair is told.
    (
        2,
        [[(1, 0), (2, 0)], [(1, 1), (0, 0)], [(0, 1), (1, 0)]],
        0,
        "aa ab ba bb",
        "baa",
        [[(1, 0), (1, 0)], [(0, 1), (0, 0)]],
    ),
]
