"""The numbers of a seed and the machines that `trial` draws, done again here. `tests/machines.py` draws walks by these numbers."""
WORD, WIDE = 2**64, 2**128
FACTOR = 0x2360ED051FC65DA44385DF649FCCF645


def rotated(value, bits, by):
    by %= bits
    return (value >> by | value << (bits - by)) % 2**bits


def after(state, step, count):
    """A state of PCG after so many steps: by doubling them, so that they may be many."""
    factor = FACTOR
    while count:
        if count % 2:
            state = (state * factor + step) % WIDE
        step, factor, count = step * (factor + 1) % WIDE, factor**2 % WIDE, count // 2
    return state


def words(seed, passed=0):
    """The words of PCG with 128 bits of state (O'Neill 2014), seeded by a number as `rand_core` does, behind so many of them."""
    chunks = []
    for _ in range(8):
        seed = (seed * 6364136223846793005 + 11634580027462260723) % WORD
        chunks.append(rotated(((seed >> 18 ^ seed) >> 27) % 2**32, 32, seed >> 59))
    state, step = (sum(c << 32 * i for i, c in enumerate(part)) for part in (chunks[:4], chunks[4:]))
    step |= 1
    state = after(after(state + step, step, 1), step, passed)
    while True:
        state = (state * FACTOR + step) % WIDE
        yield rotated(state >> 64 ^ state % WORD, 64, state >> 122)


def drawn(states, inputs, seed):
    """The rows of a drawn machine: for each state a cell for each letter, the next state and the output's number."""
    random = words(seed)
    rows = []
    for q in range(states):
        row = [((q + 1) % states, int(q + 1 == states))]
        for _ in range(1, inputs):
            row.append((next(random) % states, next(random) % 2))
        rows.append(row)
    return rows


def machine_file(states, inputs, seed):
    """What the file of a drawn machine holds."""
    rows = [[[q, str(y)] for q, y in row] for row in drawn(states, inputs, seed)]
    return {"inputs": [f"a{x}" for x in range(inputs)], "outputs": ["0", "1"], "states": rows}
