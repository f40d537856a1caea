"""What a seeded chooser chooses, computed apart from the programs: rand 0.10's shuffle and its draw from a range, over
the words of ChaCha20 with the seed as key, the stream's number as nonce, which is 0 but for later lives of a detector,
and a counter from 0 (RFC 8439's cipher with a counter and a nonce of 64 bits).

It was written after those descriptions and not after this repository's code. Of a seed of zeros it gives the words that
RFC 8439 lists for a key of zeros, and the orders and places that crates/swim_targets_tests/src/tests/choices.rt
expects.
"""

WORD = 2**32


def rotated(value, count):
    return (value << count | value >> (32 - count)) % WORD


def block(key, counter, stream):
    """The sixteen words of a block of the stream of that number."""
    words = lambda data: [int.from_bytes(data[i : i + 4], "little") for i in range(0, len(data), 4)]
    start = words(b"expand 32-byte k") + words(key) + [counter % WORD, counter // WORD, stream % WORD, stream // WORD]
    state = list(start)

    def quarter(a, b, c, d):
        for left, right, far, count in ((a, b, d, 16), (c, d, b, 12), (a, b, d, 8), (c, d, b, 7)):
            state[left] = (state[left] + state[right]) % WORD
            state[far] = rotated(state[far] ^ state[left], count)

    for _ in range(10):
        for i in range(4):
            quarter(i, 4 + i, 8 + i, 12 + i)
        for i in range(4):
            quarter(i, 4 + (i + 1) % 4, 8 + (i + 2) % 4, 12 + (i + 3) % 4)
    return [(a + b) % WORD for a, b in zip(state, start)]


class Draws:
    """The choices of a seed, in the order of asking."""

    def __init__(self, seed, stream=0):
        self.words = (word for counter in iter(range(2**63)) for word in block(seed, counter, stream))

    def below(self, bound):
        """A number below the bound: the high half of a word times it. Where the low half might carry, a second word
        tells."""
        high, low = divmod(next(self.words) * bound, WORD)
        if low > WORD - bound:
            high += low + next(self.words) * bound // WORD >= WORD
        return high

    def place(self, last):
        return self.below(last + 1)

    def order(self, ids):
        """Each element from the second on is swapped with one up to it. The indices of as many swaps as fit a word are
        taken from one draw."""
        ids, chunk, left = list(ids), 0, 1
        for i in range(len(ids)):
            if left == 0:
                bound, left = i + 1, 1
                while bound * (i + 1 + left) < WORD:
                    bound, left = bound * (i + 1 + left), left + 1
                chunk = self.below(bound)
            left -= 1
            chunk, index = (chunk, chunk) if left == 0 else divmod(chunk, i + 1)
            ids[i], ids[index] = ids[index], ids[i]
        return ids
