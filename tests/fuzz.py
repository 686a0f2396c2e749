#!/usr/bin/env python3
"""Compare a program that reads a TXP file on standard input, such as txpshow,
with second.show on files changed at random.

    python3 tests/fuzz.py SEED COUNT COMMAND [ARGUMENT...]

The same seed gives the same files. A file for which the outputs differ is kept
as fuzz-SEED-CASE.txp in the current directory. The exit status is 1 if there
was one.
"""

import random
import sys
from collections import Counter

import second
import show
from arrays import STYLES, random_array, random_bits

HEADER = second.HEADER_BYTES


def valid_file(rng):
    """A file as the encoder writes it, whole or cut by a budget."""
    N = rng.choices((2, 3, 4, 5, 6), (40, 30, 20, 7, 3))[0]
    L, P = rng.randint(1, N - 1), rng.randint(0, 24)
    style = rng.choice(STYLES if N < 5 else ('sparse', 'single', 'tree'))
    _, bits = second.encode(N, L, random_array(rng, N, P, style), 2 ** 32 - 1)
    if rng.random() < 0.5:
        bits = bits[:rng.randint(0, len(bits))]
    return bytearray(second.write_file(N, L, P, len(bits), bits))


def set_declared(data, declared):
    """Change the declared bits."""
    data[8:12] = (declared % 2 ** 32).to_bytes(4, 'big')


def flip_body_bit(rng, data):
    """Flip one bit of the body."""
    if len(data) > HEADER:
        data[rng.randrange(HEADER, len(data))] ^= 1 << rng.randrange(8)


def flip_bit(rng, data):
    """Flip one bit anywhere."""
    if data:
        data[rng.randrange(len(data))] ^= 1 << rng.randrange(8)


def change_size(rng, data):
    """Change N, L or P, mostly by a little."""
    place = rng.choice((5, 6, 7))
    if len(data) > place:
        data[place] = rng.choice((
            (data[place] + rng.choice((-1, 1))) % 256, rng.randrange(26)))


def shorten(rng, data):
    """Drop bytes from the end."""
    most = len(data) if rng.random() < 0.1 else len(data) - HEADER
    if most > 0:
        del data[len(data) - rng.randint(1, most):]


def lengthen(rng, data):
    """Add bytes at the end."""
    data += bytes(rng.choice((0, 0, 255, rng.randrange(256)))
                  for _ in range(rng.randint(1, 4)))


def change_declared(rng, data):
    """Declare more or fewer bits."""
    declared = int.from_bytes(data[8:12], 'big')
    there = 8 * max(0, len(data) - HEADER)
    set_declared(data, rng.choice((
        declared + rng.randint(-9, 9), there + rng.randint(0, 1),
        2 ** 32 - 1 - rng.randint(0, 8), rng.getrandbits(32))))


def random_tail(rng, data):
    """Random bits from some byte of the body on, all of them declared."""
    if len(data) < HEADER:
        return
    start = rng.randint(HEADER, len(data))
    bits = random_bits(rng, rng.randint(0, 300), rng.choice((0, 0.2, 0.5, 0.9)))
    data[start:] = second.pack(bits)
    set_declared(data, 8 * (start - HEADER) + len(bits))


def repad(rng, data):
    """A few bits more or fewer, declared and with their padding 0."""
    bits = second.unpack(data[HEADER:])
    declared = min(int.from_bytes(data[8:12], 'big'), len(bits))
    bits = bits[:max(0, declared - rng.randint(0, 12))]
    bits += random_bits(rng, rng.randint(0, 12), 0.5)
    data[HEADER:] = second.pack(bits)
    set_declared(data, len(bits))


def relabel(rng, data):
    """Letters, version and N at once, each right or not: N about the largest
    that is shown and the largest that there is."""
    label = (rng.choice((b'TXP', b'TXP', b'TXp', b'TxP', b'tXP'))
             + rng.choice((1, 1, 0, 2, 256, 257)).to_bytes(2, 'big')
             + bytes((rng.choice((second.SHOW_N, second.SHOW_N + 1,
                                  second.N_LIMIT, second.N_LIMIT + 1)),)))
    data[:6] = label[:len(data)]


def resize(rng, data):
    """About as many bytes as the header has, or as txpshow takes."""
    count = rng.choice((HEADER, HEADER, second.SHOW_BYTES)) + rng.randint(-1, 1)
    data += bytes(max(0, count - len(data)))
    del data[count:]
    if count > HEADER and rng.random() < 0.5:
        set_declared(data, 8 * (count - HEADER))


CHANGES = (flip_body_bit, flip_bit, change_size, shorten, lengthen,
           change_declared, random_tail, repad, relabel, resize)
WEIGHTS = (20, 5, 5, 15, 5, 10, 15, 15, 10, 10)


def answer_of(text):
    """What an output says, without its figures: of a file that is shown why
    its bits ended."""
    words = text.split('\n')[0].split()
    return words[0] + ' ' + words[-1 if words[0] == 'TXP' else 1]


def changed_file(rng):
    """A valid file after a few changes."""
    data = valid_file(rng)
    for change in rng.choices(CHANGES, WEIGHTS, k=rng.choice((0, 1, 1, 2, 3))):
        change(rng, data)
    return bytes(data)


def main(seed, count, command):
    """Compare the outputs for so many files."""
    rng = random.Random(seed)
    answers = Counter()
    different = 0
    for case in range(count):
        data = changed_file(rng)
        wanted = second.show(data)
        answers[answer_of(wanted)] += 1
        got, status = show.run(command, data)
        if got != wanted.encode() or status < 0:
            different += 1
            name = 'fuzz-%d-%d.txp' % (seed, case)
            with open(name, 'wb') as file:
                file.write(data)
            print(show.told(name, got, status, wanted.encode()))
    print('%d files, %d different' % (count, different))
    for answer, number in sorted(answers.items()):
        print('  %-10s %d' % (answer, number))
    return 1 if different else 0


if __name__ == '__main__':
    if len(sys.argv) < 4:
        sys.exit(__doc__)
    sys.exit(main(int(sys.argv[1]), int(sys.argv[2]), sys.argv[3:]))
