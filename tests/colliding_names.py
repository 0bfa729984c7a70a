#!/usr/bin/env python3
"""The names of bench/colliding.txt, which collide in the table of texts of the assembler's pool.

That table is an IndexSet of the toolchain's `indexmap`: groups of slots, nine texts a group on average. It takes 32 bits of a text's hash: the low
ones say in which group a search begins, and the top eight are the tag by which texts of a group are distinguished. A pool has at most 65,534 texts,
for which there are 8,192 groups, so that 13 low bits count. The hash is that of the toolchain's `FoldHasher`, whose seed is fixed. The names
are the first 500 with seven letters, in the order of LETTERS, that have the tag 128 and begin in group 0: in smaller tables they begin in one group too.

    tests/colliding_names.py        computes all of them anew from the first name of seven letters on, and writes them; it takes some minutes

tests/generated calls `check`, which computes the place of each name, and computes anew those that begin with FIRST.
"""

import os
import sys

NAMES = os.path.join(os.path.dirname(os.path.dirname(os.path.abspath(__file__))), "bench", "colliding.txt")
COUNT, LENGTH, FIRST = 500, 7, b"aaa"
LETTERS = b"abcdefghijklmnopqrstuvwxyzABCDEFGHIJKLMNOPQRSTUVWXYZ0123456789_$"
SEED, MULTIPLIER = 0x243F6A8885A308D3, 0x9E3779B97F4A7C15
# The bits of the table's hash that count, and what they are for these names.
BITS, PLACE = 0xFF001FFF, 0x80000000


def folded(a, b):
    """The halves of a product of 128 bits, joined by xor."""
    return (a * b) % 2**64 ^ (a * b) >> 64


def begun():
    """The hasher's state before the first byte of a name: its length was written as eight bytes."""
    return folded(SEED ^ LENGTH, MULTIPLIER ^ 2 * 8)


def word(letter):
    """A single byte is read as the first, the middle and the last of what is written."""
    return letter * 0x010101


def state_after(letters, state):
    for letter in letters:
        state = folded(state ^ word(letter), MULTIPLIER ^ 2)
    return state


def place(name):
    """The bits of the table's hash that count."""
    state = state_after(name, begun())
    return (state ^ state >> 32) & BITS


class Lanes:
    """States side by side in one long number, 128 bits each, so that products of all are one product."""

    def __init__(self, count):
        self.count = count
        self.each = sum(1 << 128 * at for at in range(count))
        self.words = {letter: self.each * word(letter) for letter in LETTERS}
        self.bits, self.place = self.each * BITS, self.each * PLACE
        self.most, self.carries = self.each * (2**32 - 1), self.each << 32

    def joined(self, states):
        return int.from_bytes(b"".join(state.to_bytes(16, "little") for state in states), "little")

    def found(self, states, letter):
        """The lanes that are in the place after this letter."""
        products = (states ^ self.words[letter]) * (MULTIPLIER ^ 2)
        # Only the low 32 bits of a lane count then.
        last = products ^ products >> 64
        others = ((last ^ last >> 32) & self.bits) ^ self.place
        # A lane carries unless it is 0.
        carried = (others + self.most) & self.carries
        if carried == self.carries:
            return []
        return [at for at in range(self.count) if not carried >> 128 * at + 32 & 1]


LANES = Lanes(len(LETTERS) ** 2)


def names_from(start):
    """The names in the place that begin with these letters, in order. The last three are tried side by side."""
    if len(start) < LENGTH - 3:
        for letter in LETTERS:
            yield from names_from(start + bytes([letter]))
        return
    state = state_after(start, begun())
    pairs = [bytes([one, other]) for one in LETTERS for other in LETTERS]
    states = LANES.joined([state_after(pair, state) for pair in pairs])
    found = [(at, rank) for rank, letter in enumerate(LETTERS) for at in LANES.found(states, letter)]
    yield from (start + pairs[at] + LETTERS[rank : rank + 1] for at, rank in sorted(found))


def misplaced(names):
    lines = ["%s is in another place" % name.decode() for name in names if place(name) != PLACE]
    order = [[LETTERS.index(letter) for letter in name] for name in names]
    lines += ["%s isn't after the one before" % names[at].decode() for at in range(1, len(names)) if order[at - 1] >= order[at]]
    if len(names) != COUNT or any(len(name) != LENGTH for name in names):
        lines.append("it isn't %d names of %d letters" % (COUNT, LENGTH))
    return lines


def check(results):
    with open(NAMES, "rb") as file:
        data = file.read()
    names = data.split()
    lines = [] if data == b"".join(name + b"\n" for name in names) else ["it isn't a name a line"]
    results.add("bench/colliding.txt, the places of the names", [], lines + misplaced(names))
    made = list(names_from(FIRST))
    lines = [] if made == names[: len(made)] and not names[len(made)].startswith(FIRST) else ["made are %r" % made]
    results.add("bench/colliding.txt, the names that begin with %s" % FIRST.decode(), [], lines)


def main():
    written = 0
    for name in names_from(b""):
        sys.stdout.write(name.decode() + "\n")
        written += 1
        if written == COUNT:
            return


if __name__ == "__main__":
    main()
