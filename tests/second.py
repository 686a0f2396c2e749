#!/usr/bin/env python3
"""A second coder for the texture stream of document 01 (docs/01-scope.md), with
the stepped decoder of document 02's request T-01, the sizes of its T-02, the
precisions of its T-04, the transform of its T-05, the words of its T-06 for why
the bits ended and the two rules of its T-07 for a value.

It reaches the answers of document 01 by other means than the scan with marks,
so that a coder written from the marks can be compared with it.

- The encoder keeps no marks.  The questions of a plane are read off the
  magnitudes and sorted by place.
- The decoder keeps the parts that stand and takes their questions from a queue
  ordered by place.  It accepts an answer if the greatest array that the answers
  allow still fits them.
- The table of marks after any number of bits is read off the parts that stand.
- The stepped decoder takes no step: it decodes each prefix from its first bit.
- The transform takes whole rows of a square, and whole columns as the rows of
  the square turned.

Sentences in quotation marks are those of document 01, or of document 02 where
that is said.  Bits and places count from 0.

    python3 tests/second.py selftest [full]
    python3 tests/second.py show FILE
    python3 tests/second.py encode N L BUDGET [FILE] < numbers, in raster order
    python3 tests/second.py vectors DIR SEED
"""

import sys
from collections import namedtuple
from functools import cached_property, lru_cache, reduce
from heapq import heapify, heappop, heappush
from itertools import chain
from operator import add, or_, sub

N_LIMIT = 10                    # document 02: "N may now be up to 10"
COEFFICIENT_LIMIT = 16_777_215
SAMPLE_LEAST, SAMPLE_MOST = -32_768, 32_767
PLANE_LIMIT = 24
HEADER_BYTES = 12
SHOW_BYTES = 16_384
SHOW_N = 6

# Kinds of question, in the order in which they are asked at one place.
GRAND, DESC, PIXEL = 0, 1, 2
# A question about GRAND(i), DESC(i) or coefficient i has place STEP[kind] * i.
STEP = (16, 4, 1)

NONE, MIP, MNP, MSP, MCP, MD, MG = range(7)

# Why the bits ended, document 02: "the first line gains a last word, `whole`,
# `budget` or `cut`".
WHOLE, BUDGET, CUT = 'whole', 'budget', 'cut'


def MN(k):
    """The code of a mark MNk: "MNk is k+5, for k from 2 to 7"; document 02:
    "Marks MN8 and MN9 take codes 13 and 14"."""
    return k + 5


Refused = namedtuple('Refused', 'number place')
Header = namedtuple('Header', 'N L P declared bits')
Encoded = namedtuple('Encoded', 'P bits file desc grand marks')
# The ending is one of the words below, or None where bits go on.
Decoded = namedtuple(
    'Decoded',
    'values precisions marks used finished error plane_bits record ending')
# The scan record of document 02: "N, L, P, plane, pass, place, bits used, a
# pending sign". Its pass is 0 for the pixel, 1 for the set and 2 for the
# refinement pass.
Record = namedtuple('Record', 'N L P plane stage place used pending')


# Linear order.

def linear_place(N, raster):
    """The linear place of the raster place row * 2^N + column: "Row and column
    bits are interleaved, row bit above column bit at each place"."""
    row, column = divmod(raster, 2 ** N)
    return sum((row >> k & 1) << 2 * k + 1 | (column >> k & 1) << 2 * k
               for k in range(N))


@lru_cache(maxsize=None)
def linear_places(N):
    """The linear place of each raster place: the bits of its row, and those of
    its column."""
    columns = [linear_place(N, column) for column in range(2 ** N)]
    rows = [linear_place(N, row * 2 ** N) for row in range(2 ** N)]
    return [row | column for row in rows for column in columns]


def to_linear(N, raster):
    """A raster array in linear order."""
    linear = [0] * 4 ** N
    for place, value in zip(linear_places(N), raster):
        linear[place] = value
    return linear


def to_raster(N, linear):
    """A linear array in raster order."""
    return [linear[place] for place in linear_places(N)]


# Transform. The sentences are those of document 02, T-05.

def split_pairs(row):
    """A row's pairs as lows and highs: "For a pair a, b: low is the floor of
    (a+b)/2, high is a-b"; "lows fill the first half of a row or column"."""
    first, other = row[::2], row[1::2]
    lows = [both // 2 for both in map(add, first, other)]
    return lows + list(map(sub, first, other))


def join_pairs(row):
    """The row of pairs with these lows and highs: "a is low plus the floor of
    (high+1)/2, b is a-high"."""
    half = len(row) // 2
    lows, highs = row[:half], row[half:]
    row[::2] = [low + (high + 1) // 2 for low, high in zip(lows, highs)]
    row[1::2] = map(sub, row[::2], highs)
    return row


def turned(square):
    """A square's columns, as rows."""
    return list(map(list, zip(*square)))


def split_square(square):
    """A square after a level: "rows then columns at each level"."""
    columns = turned(map(split_pairs, square))
    return turned(map(split_pairs, columns))


def join_square(square):
    """A square before a level: "columns then rows"."""
    rows = turned(map(join_pairs, turned(square)))
    return list(map(join_pairs, rows))


def change_corner(square, side, change):
    """Changes the first rows and columns of a square, so many of each."""
    corner = change([row[:side] for row in square[:side]])
    for row, own in zip(square, corner):
        row[:side] = own


def rows_of(N, raster):
    """The rows of a raster array."""
    side = 2 ** N
    return [list(raster[at:at + side]) for at in range(0, side * side, side)]


def level_sides(N, L):
    """The side of the square that each level works on, the finest first: the
    first quarter, where the lows of all rows and columns are, has half the side
    of the level before."""
    return [2 ** (N - j) for j in range(L)]


def to_coefficients(N, L, samples):
    """The transform: "Samples are in raster order, coefficients in linear"."""
    square = rows_of(N, samples)
    for side in level_sides(N, L):
        change_corner(square, side, split_square)
    return to_linear(N, chain(*square))


def to_samples(N, L, coefficients):
    """The inverse, which "undoes the coarsest level first"."""
    square = rows_of(N, to_raster(N, coefficients))
    for side in reversed(level_sides(N, L)):
        change_corner(square, side, join_square)
    return list(chain(*square))


def first_outside(numbers, least, most):
    """The place of the first number out of range, or None."""
    if least <= min(numbers) and max(numbers) <= most:
        return None
    return next(place for place, x in enumerate(numbers)
                if not least <= x <= most)


def check_square(N, L, numbers):
    """Refusals 1, 2 and 3."""
    refused = check_sizes(N, L)
    if refused:
        return refused
    return Refused(3, 0) if len(numbers) != 4 ** N else None


def transform(N, L, samples, lent=None):
    """The coefficients of samples, or the first refusal: "17, sample out of
    range, with the first raster place", "after 1, 2, 3 and 5". lent gives the
    lengths of the lent output and work table; None stands for lengths that
    suffice."""
    refused = check_square(N, L, samples)
    if refused:
        return refused
    if lent and min(lent) < 4 ** N:
        return Refused(5, 0)
    place = first_outside(samples, SAMPLE_LEAST, SAMPLE_MOST)
    if place is not None:
        return Refused(17, place)
    return to_coefficients(N, L, samples)


def restore(N, L, coefficients, lent=None):
    """The samples of coefficients, or the first refusal: "18, a restored sample
    out of range, place 0", "after 1, 2, 3 and 5, and on the inverse 4 stands
    between 3 and 5". lent as for transform."""
    refused = check_square(N, L, coefficients)
    if refused:
        return refused
    place = first_outside(coefficients, -COEFFICIENT_LIMIT, COEFFICIENT_LIMIT)
    if place is not None:
        return Refused(4, place)
    if lent and min(lent) < 4 ** N:
        return Refused(5, 0)
    samples = to_samples(N, L, coefficients)
    if first_outside(samples, SAMPLE_LEAST, SAMPLE_MOST) is not None:
        return Refused(18, 0)
    return samples


def lent_after(N, got):
    """What the first entries of the lent output and work table hold after
    transform or restore answered so: "A work table, if one is lent, ends as
    zeros", and after 18 "the first I output entries set to 0". No other refusal
    touches anything."""
    if not isinstance(got, Refused):
        return got, [0] * 4 ** N
    if got.number == 18:
        return [0] * 4 ** N, [0] * 4 ** N
    return (), ()


# Trees.

class Shape:
    """The trees of one N and L. A set is split into parts: a DESC into the
    children and a GRAND, a GRAND into the children's DESC. parts[key] is how
    many parts a set has that are not empty, and 1 for a coefficient; the key
    everything stands for the parts with which the scan starts."""

    def __init__(self, N, L):
        self.I, self.D = 4 ** N, 4 ** (N - L)
        self.everything = 3 * self.I
        self.parts = [4] * self.I + [4] * self.I + [1] * self.I
        for i in range(self.D // 4, self.I // 16):
            self.parts[self.key(DESC, i)] = 5
        self.parts.append(self.D + self.D - self.D // 4)

    def members(self, kind, i):
        """The coefficients that a question is about."""
        if kind == PIXEL:
            return [i]
        children = self.children(i)
        below = [m for c in children for m in self.members(DESC, c)]
        return below if kind == GRAND else children + below

    def children(self, i):
        """The rule: "Children of place i are 4i to 4i+3, for i from D/4 to
        I/4-1. Places 0 to D/4-1 have none"."""
        if self.D // 4 <= i < self.I // 4:
            return [4 * i, 4 * i + 1, 4 * i + 2, 4 * i + 3]
        return []

    def key(self, kind, i):
        """One number for each set."""
        return kind * self.I + i

    def whole(self, key):
        """The key of the set that was split into this part and others."""
        kind, i = divmod(key, self.I)
        if kind == GRAND:
            return self.key(DESC, i)
        if i < self.D:
            return self.everything
        return self.key(GRAND if kind == DESC else DESC, i // 4)

    def has_grand(self, i):
        """GRAND(i) "is empty when i is I/16 or more"."""
        return i < self.I // 16


@lru_cache(maxsize=None)
def shape_of(N, L):
    """The shape of one N and L, made once."""
    return Shape(N, L)


def summaries(N, L, A):
    """The tables of DESC and GRAND: "The summaries are the bitwise OR of
    magnitudes over DESC(i) and GRAND(i): I/4 and I/16 numbers. Entries below
    D/4 hold 0"."""
    I, D = 4 ** N, 4 ** (N - L)
    desc = fours(list(map(abs, A)))
    desc[:D // 4] = [0] * (D // 4)
    grand = [0] * (I // 16)
    # a set's children come after it
    for i in reversed(range(D // 4, I // 16)):
        grand[i] = reduce(or_, desc[4 * i:4 * i + 4])
        desc[i] |= grand[i]
    return desc, grand


def fours(numbers):
    """The OR of each four numbers."""
    each = iter(numbers)
    return [a | b | c | d for a, b, c, d in zip(each, each, each, each)]


def plane_count(A):
    """P, "the least P with every magnitude below 2^P"."""
    return max(map(abs, A)).bit_length()


# Encoder.

def plane_bits(shape, A, size, desc, grand, b):
    """The bits of plane b of an array with these magnitudes and summaries.

    A summary is at least 2^n exactly if a member is. So a set was split before
    plane b if its summary is at least `before`, and is split after plane b if
    it is at least `now`.
    """
    now, before = 1 << b, 2 << b
    D, I = shape.D, shape.I
    bits = []

    def test(i):
        bits.append(size[i] >> b & 1)
        if size[i] >= now:
            bits.append(int(A[i] < 0))

    # The coefficients that stood alone before the plane.
    alone = list(range(D)) + [c for i in range(D // 4, I // 4)
                              if desc[i] >= before for c in shape.children(i)]

    # "Pixel pass": those that were not found.
    for i in alone:
        if size[i] < before:
            test(i)

    # "Set pass": the sets that stood before the plane, and what stands once a
    # set is split in it, each at its own place.
    asked = []
    sets = list(range(D // 4, D)) + [c for i in range(D // 4, I // 16)
                                     if grand[i] >= now
                                     for c in shape.children(i)]
    for i in sets:
        if desc[i] < before:
            asked.append((STEP[DESC] * i, DESC, i))
            if desc[i] >= now:
                asked += [(c, PIXEL, c) for c in shape.children(i)]
    for i in range(D // 4, I // 16):
        if grand[i] < before and desc[i] >= now:
            asked.append((STEP[GRAND] * i, GRAND, i))
    for _, kind, i in sorted(asked):
        if kind == PIXEL:
            test(i)
        else:
            bits.append(int((desc if kind == DESC else grand)[i] >= now))

    # "Refinement pass": those found in an earlier plane.
    bits += [size[i] >> b & 1 for i in alone if size[i] >= before]
    return bits


def planes(N, L, A, desc, grand):
    """The bits of one plane after the other, P-1 first."""
    size = [abs(a) for a in A]
    for b in reversed(range(plane_count(A))):
        yield plane_bits(shape_of(N, L), A, size, desc, grand, b)


def stream_by_plane(N, L, A):
    """The whole stream, one list of bits for each plane, P-1 first."""
    return list(planes(N, L, A, *summaries(N, L, A)))


def first_bits(stream, budget):
    """The bits written: "The number of bits written is the smaller of the
    budget and the whole stream's length." The stream comes plane by plane."""
    bits = []
    for plane in stream:
        bits += plane
        if len(bits) >= budget:
            break
    return bits[:budget]


def encode(N, L, A, budget):
    """P and the bits written. A is in linear order."""
    stream = planes(N, L, A, *summaries(N, L, A))
    return plane_count(A), first_bits(stream, budget)


def worst_body(N, L, P):
    """The length of the longest stream of P planes, 0 for P = 0.

    After a plane at most I parts stand; every coefficient is found at most
    once and every set split at most once. An array whose magnitudes are all
    2^P - 1 reaches all three.
    """
    if P == 0:
        return 0
    I, D = 4 ** N, 4 ** (N - L)
    sets = (I // 4 - D // 4) + (I // 16 - D // 4)
    return P * I + I + sets


def encode_file(N, L, A, budget, lent=None):
    """The encoder's whole answer, or the first refusal: "Encoding checks 1 to
    6 in that order." lent gives the lengths of the lent DESC table, GRAND
    table, marks and output; None stands for lengths that suffice."""
    refused = check_sizes(N, L)
    if refused:
        return refused
    I = 4 ** N
    if len(A) != I:
        return Refused(3, 0)
    for place, a in enumerate(A):
        if abs(a) > COEFFICIENT_LIMIT:
            return Refused(4, place)
    if lent and (lent[0] < I // 4 or lent[1] < I // 16 or lent[2] < I):
        return Refused(5, 0)
    P = plane_count(A)
    if lent and lent[3] < output_bytes(N, L, P, budget):
        return Refused(6, 0)
    desc, grand = summaries(N, L, A)
    bits = first_bits(planes(N, L, A, desc, grand), budget)
    return Encoded(P, bits, write_file(N, L, P, len(bits), bits), desc, grand,
                   marks_after(N, L, P, bits))


def output_bytes(N, L, P, budget):
    """The output that check 6 asks for: "12 + the bytes for min(budget, worst
    body)", the worst body at the array's own P."""
    return HEADER_BYTES + bytes_for(min(budget, worst_body(N, L, P)))


# Rules for a value: its magnitude, from the precision k and the known bits m.

def lower(k, m):
    """The default, document 02: "The default becomes m itself, with its
    sign"."""
    return m


def midpoint(k, m):
    """The rule of document 01: "if m is 0 the value is 0, else m + 2^(k-1) with
    its sign; for k = 0 it is m". Document 02: "midpoint stays by name"."""
    return m + (1 << k >> 1) if m else 0


# Decoder.

class Cut(Exception):
    """There is no next bit."""


class Contradiction(Exception):
    """No array fits the answers."""


class Greatest:
    """The greatest array that the answers allow.

    At first every bit below P is set everywhere. An answer 0 clears bit b of
    the question's members. An array of exactly P planes fits the answers
    exactly if each question answered 1 still has a member with bit b and, in
    plane P-1, some coefficient still has that bit. A ceiling other than the
    default narrows the arrays to those whose bits all lie in it.

    A set has a member with bit b exactly if one of its parts has, so the parts
    that have one are counted. What is answered 0 in a plane is asked no more
    in it, nor are its parts.
    """

    def __init__(self, shape, P, ceiling=None):
        self.shape, self.P, self.ceiling = shape, P, ceiling
        self.zeros = []

    def array(self):
        """The array itself."""
        array = list(self.ceiling or [2 ** self.P - 1] * self.shape.I)
        for b, kind, i in self.zeros:
            for m in self.shape.members(kind, i):
                array[m] &= ~(1 << b)
        return array

    def start(self, b):
        """Plane b begins."""
        self.b, self.owed = b, set()
        self.left = list(self.shape.parts)
        for m, a in enumerate(self.ceiling or ()):
            if not a >> b & 1:
                self.clear(self.shape.key(PIXEL, m))

    def clear(self, key):
        """A part has no member with bit b. Does an array still fit?"""
        possible = True
        if self.left[key]:
            self.left[key] = 0
            while not self.left[key]:
                if key in self.owed:
                    possible = False
                if key == self.shape.everything:
                    return possible and self.b < self.P - 1
                key = self.shape.whole(key)
                self.left[key] -= 1
        return possible

    def fits(self, kind, i, bit):
        """Take the answer to a question. Does an array still fit?"""
        key = self.shape.key(kind, i)
        if bit:
            self.owed.add(key)
            return self.left[key] > 0
        self.zeros.append((self.b, kind, i))
        return self.clear(key)


class Decoder:
    """The parts that stand while a stream is read.

    standing: the sets, as (kind, i); unfound: the coefficients that stand
    alone and are not found; found: the plane in which each other one was
    found. In the plane b in progress: read holds the coefficients whose own
    bit was read, fresh those of a set split in it whose own bit was not, zero
    the sets tested 0, and the refinement pass has passed all places below
    passed. stage is the pass in progress, question what was asked last, and
    pending says that it was answered 1 and its sign is not read. precisions and
    marks are asked for when all bits are read, and are made once.
    """

    def __init__(self, N, L, P, bits, ceiling=None):
        self.N, self.L = N, L
        self.shape, self.P, self.bits = shape_of(N, L), P, bits
        self.greatest = Greatest(self.shape, P, ceiling)
        self.used = self.finished = self.passed = self.stage = 0
        self.b = P
        self.plane_bits = []
        self.known, self.negative = [0] * self.shape.I, [False] * self.shape.I
        D = self.shape.D
        self.unfound, self.found = set(range(D)), {}
        self.standing = {(DESC, i) for i in range(D // 4, D)}
        self.read, self.fresh, self.zero = set(), set(), []
        self.question, self.pending = None, False

    def next_bit(self):
        """The next usable bit."""
        if self.used == len(self.bits):
            raise Cut
        self.used += 1
        return self.bits[self.used - 1]

    def answer(self, kind, i):
        """The answer to a question, if an array fits it."""
        self.question = kind, i
        bit = self.next_bit()
        if not self.greatest.fits(kind, i, bit):
            raise Contradiction
        return bit

    def test(self, i):
        """A test bit and, after a 1, the sign. "A test bit 1 whose sign is
        missing has changed no mark": nothing is noted before the sign."""
        if self.answer(PIXEL, i):
            self.pending = True
            self.negative[i] = self.next_bit() == 1
            self.pending = False
            self.known[i] = 1 << self.b
            self.found[i] = self.b
            self.unfound.remove(i)
        self.fresh.discard(i)
        self.read.add(i)

    def split(self, kind, i):
        """A set is split into the parts returned."""
        self.standing.remove((kind, i))
        if kind == GRAND:
            parts = [(DESC, c) for c in self.shape.children(i)]
            self.standing.update(parts)
            return parts
        children = self.shape.children(i)
        self.unfound.update(children)
        self.fresh.update(children)
        parts = [(PIXEL, c) for c in children]
        if self.shape.has_grand(i):
            self.standing.add((GRAND, i))
            parts.append((GRAND, i))
        return parts

    def plane(self, b):
        """Plane b: the pixel pass, the set pass and the refinement pass."""
        self.b, self.passed, self.stage = b, 0, 0
        self.read, self.fresh, self.zero = set(), set(), []
        self.greatest.start(b)
        start = self.used
        found_before = sorted(self.found)
        for i in sorted(self.unfound):
            self.test(i)
        self.stage = 1
        queue = [(STEP[kind] * i, kind, i) for kind, i in self.standing]
        heapify(queue)
        while queue:
            _, kind, i = heappop(queue)
            if kind == PIXEL:
                self.test(i)
            elif self.answer(kind, i):
                for kind, i in self.split(kind, i):
                    heappush(queue, (STEP[kind] * i, kind, i))
            else:
                self.zero.append((kind, i))
        self.stage = 2
        for i in found_before:
            self.passed = i
            self.known[i] |= self.answer(PIXEL, i) << b
            self.read.add(i)
        self.passed = self.shape.I
        self.finished += 1
        self.plane_bits.append(self.used - start)

    def run(self):
        """Read all usable bits; a refusal or None."""
        try:
            for b in reversed(range(self.P)):
                self.plane(b)
        except Cut:
            return None
        except Contradiction:
            return Refused(12, self.used - 1)
        return Refused(13, self.used) if self.used < len(self.bits) else None

    def last_plane(self):
        """The number of the last finished plane, or P if none."""
        return self.P - self.finished

    def record(self):
        """Where the scan rests once all bits are read: at the next question,
        or at the end of plane 0, at which P = 0 begins."""
        if self.finished == self.P:
            plane, stage, place = 0, 2, self.shape.I
        else:
            kind, i = self.question
            plane, stage, place = self.b, self.stage, STEP[kind] * i
        return Record(self.N, self.L, self.P, plane, stage, place, self.used,
                      int(self.pending))

    @cached_property
    def precisions(self):
        """Each coefficient's precision k: "b if its own bit of the plane b in
        progress was read (with its sign, where one follows); else the number
        of the last finished plane, or P if none". Document 02: "A coefficient
        also has precision b when a set that holds it was tested 0 in the plane
        in progress"."""
        precisions = [self.last_plane()] * self.shape.I
        for i in self.read:
            precisions[i] = self.b
        for kind, i in self.zero:
            for m in self.shape.members(kind, i):
                precisions[m] = self.b
        return precisions

    def values(self, rule):
        """Each value by a rule, from the bits k and above of the magnitude: the
        "Known bits m". Where no coefficient was found nothing is known, m is 0,
        and so is the value by any rule."""
        values = [0] * self.shape.I
        for i in self.found:
            k = self.precisions[i]
            size = rule(k, self.known[i] >> k << k)
            values[i] = -size if self.negative[i] else size
        return values

    @cached_property
    def marks(self):
        """The table of marks, from the parts that stand and the scan's place.

        The first place of each generation of a standing set has a mark: MD for
        the first generation of a DESC, MG for the second of a GRAND, and MNk
        for each later one, the k-th below the set's root.
        """
        I = self.shape.I
        marks = [NONE] * I
        for i in self.unfound:
            marks[i] = MCP if i in self.fresh else MIP
        for i, plane in self.found.items():
            marks[i] = MSP if plane > self.b or i < self.passed else MNP
        for kind, i in self.standing:
            first = 1 if kind == DESC else 2
            generation = first
            while 4 ** generation * i < I:
                marks[4 ** generation * i] = MN(generation)
                generation += 1
            marks[4 ** first * i] = MD if kind == DESC else MG
        return marks


@lru_cache(maxsize=1)
def ran(N, L, P, bits, ceiling):
    """A decoder that has run, and its refusal or None; kept for whoever asks
    next, since an encoder's marks and the answers by both rules come from one
    run."""
    decoder = Decoder(N, L, P, bits, ceiling)
    return decoder, decoder.run()


def decode(N, L, P, bits, rule=lower, ceiling=None):
    """The answer to the usable bits, with values by a rule, or refusal 12 or 13
    with its bit. Its ending is WHOLE or None: why there are no more bits is not
    said to it."""
    decoder, refused = ran(N, L, P, tuple(bits), ceiling and tuple(ceiling))
    if refused:
        return refused
    # document 02: "`whole` means plane 0 ended (or P is 0)"
    ending = WHOLE if decoder.finished == P else None
    return Decoded(decoder.values(rule), decoder.precisions, decoder.marks,
                   decoder.used, decoder.finished,
                   2 ** decoder.last_plane() - 1, decoder.plane_bits,
                   decoder.record(), ending)


def lacking(at, declared, body):
    """Why there is no bit of this number, or None where there is one, document
    02: "declared count reached (also where both fall at one bit), or file
    short"."""
    if at >= declared:
        return BUDGET
    return CUT if at >= 8 * len(body) else None


def ended(answer, declared, body):
    """An answer to some of a body's usable bits with the word for it: WHOLE
    before the others, and None where bits and planes are left. A refusal has
    no word."""
    if isinstance(answer, Refused) or answer.ending == WHOLE:
        return answer
    return answer._replace(ending=lacking(answer.used, declared, body))


def marks_after(N, L, P, bits):
    """The marks after bits with which some array's stream begins: "After the
    same bits, encoder and decoder hold equal tables"."""
    decoder, refused = ran(N, L, P, tuple(bits), None)
    if refused:
        raise ValueError('no array has a stream that begins so')
    return decoder.marks


# Parts that stand.

Parts = namedtuple('Parts', 'alone desc grand split')


def parts_after(N, L, A, b):
    """What stands "After plane b, from magnitudes alone": the coefficients
    that stand alone, the i of each DESC(i) and GRAND(i) that stands, and the
    number of all sets split by then."""
    shape = shape_of(N, L)
    D, I, level = shape.D, shape.I, 2 ** b
    # "DESC(i) is split if it has a member of at least 2^b; GRAND(i) likewise."
    desc_or, grand_or = summaries(N, L, A)
    desc_split = [summary >= level for summary in desc_or]
    grand_split = [summary >= level for summary in grand_or]
    alone = [i for i in range(I) if i < D or desc_split[i // 4]]
    desc = [i for i in range(D // 4, I // 4)
            if not desc_split[i] and (i < D or grand_split[i // 4])]
    grand = [i for i in range(D // 4, I // 16)
             if desc_split[i] and not grand_split[i]]
    return Parts(alone, desc, grand, sum(desc_split) + sum(grand_split))


def plane_figures(N, L, A, b):
    """Parts standing after plane b and sets split in it."""
    parts = parts_after(N, L, A, b)
    standing = len(parts.alone) + len(parts.desc) + len(parts.grand)
    return standing, parts.split - parts_after(N, L, A, b + 1).split


# File.

def bytes_for(bits):
    """The bytes that hold so many bits."""
    return (bits + 7) // 8


def pack(bits):
    """The body: "Body bits fill each byte from its highest bit; the last byte
    is padded with 0"."""
    word = ''.join(map(str, bits)) + '0' * (-len(bits) % 8)
    return bytes(int(word[n:n + 8], 2) for n in range(0, len(word), 8))


def unpack(body):
    """All bits of a body."""
    return [byte >> 7 - n & 1 for byte in body for n in range(8)]


def write_file(N, L, P, declared, bits, version=1, letters=b'TXP'):
    """The file: "Letters T X P; version as 16 bits; N, L, P as a byte each;
    declared bits as 32 bits; then the body. Numbers have the high byte
    first"."""
    return (letters + version.to_bytes(2, 'big') + bytes((N, L, P))
            + declared.to_bytes(4, 'big') + pack(bits))


def check_sizes(N, L):
    """Refusals 1 and 2."""
    if not 2 <= N <= N_LIMIT:
        return Refused(1, 0)
    if not 1 <= L <= N - 1:
        return Refused(2, 0)
    return None


def read_header(data):
    """N, L, P and the declared bits, or the first refusal in the order
    "7, 8, 1, 2, 9"."""
    if len(data) < HEADER_BYTES or data[:3] != b'TXP':
        return Refused(7, 0)
    if int.from_bytes(data[3:5], 'big') != 1:
        return Refused(8, 0)
    N, L, P = data[5:8]
    refused = check_sizes(N, L)
    if refused:
        return refused
    if P > PLANE_LIMIT:
        return Refused(9, 0)
    return N, L, P, int.from_bytes(data[8:12], 'big')


def read_file(data):
    """The header with the usable bits, or the first refusal in the order
    "7, 8, 1, 2, 9, 10, 11"."""
    header = read_header(data)
    if isinstance(header, Refused):
        return header
    N, L, P, declared = header
    body = data[HEADER_BYTES:]
    if len(body) > bytes_for(declared):
        return Refused(10, 0)
    bits = unpack(body)
    if len(body) == bytes_for(declared) and any(bits[declared:]):
        return Refused(11, 0)
    # "usable bits are the smaller of declared and 8 times the bytes present"
    return Header(N, L, P, declared, bits[:declared])


def decode_file(data, lent=None, rule=lower):
    """A header and its decoded array, with values by a rule, or a refusal. lent
    gives the lengths of the lent values, precisions and marks; None stands for
    lengths that suffice."""
    header = read_file(data)
    if isinstance(header, Refused):
        return header
    if lent and min(lent) < 4 ** header.N:
        return Refused(5, 0)
    decoded = ended(decode(header.N, header.L, header.P, header.bits, rule),
                    header.declared, data[HEADER_BYTES:])
    return decoded if isinstance(decoded, Refused) else (header, decoded)


def check_body(N, L, P, lent):
    """The checks of the calls on a body that read it: 1, 2, 9, 5. lent gives
    the lengths of the lent values, precisions and marks."""
    refused = check_sizes(N, L)
    if refused:
        return refused
    if P > PLANE_LIMIT:
        return Refused(9, 0)
    return Refused(5, 0) if min(lent) < 4 ** N else None


def decode_body(N, L, P, body, declared, lent, rule=lower):
    """What a body of so many declared bits decodes to, with values by a rule,
    or a refusal. lent as for check_body."""
    return check_body(N, L, P, lent) or ended(
        decode(N, L, P, unpack(body)[:declared], rule), declared, body)


# Stepped decoder.

def position_after(N, L, P, bits):
    """The position after some bits, or the refusal of the first of them that is
    refused. A position is what decoding a prefix answers, with its record;
    document 02: "The stepped decoder and `txpshow` must ask for the
    midpoint"."""
    return decode(N, L, P, bits, midpoint)


def start(N, L, P, lent):
    """The position before the first bit, or a refusal. No body is at hand, so
    that the word is WHOLE where P is 0, and else None."""
    return check_body(N, L, P, lent) or position_after(N, L, P, [])


def in_range(record, usable):
    """No 16, "a record whose sizes, plane, pass or place are out of range or
    whose bits used pass the usable ones"."""
    N, L, P, plane, stage, place, used, pending = record
    if check_sizes(N, L) or P > PLANE_LIMIT or used > usable:
        return False
    at_end = (plane, stage, place, pending) == (0, 2, 4 ** N, 0)
    return at_end or (plane < P and stage <= 2 and place < 4 ** N
                      and pending <= 1)


def usable_bits(body, declared):
    """The number of usable bits: "the smaller of declared and 8 times the bytes
    present"."""
    return min(declared, 8 * len(body))


def check_step(record, usable, lent):
    """The checks of each step: "16 first, then 5"."""
    if not in_range(record, usable):
        return Refused(16, 0)
    if min(lent) < 4 ** record.N:
        return Refused(5, 0)
    return None


def prefix(record, body, declared, count):
    """The position after so many of the usable bits of a body, with the word
    for it, or the refusal of the first of them that is refused."""
    bits = unpack(body)[:declared]
    return ended(position_after(record.N, record.L, record.P, bits[:count]),
                 declared, body)


def forward(record, body, declared, lent):
    """The position one bit on, or a refusal: "15, forward with no usable bit
    left", or 12 or 13 of the bit."""
    usable = usable_bits(body, declared)
    refused = check_step(record, usable, lent)
    if refused:
        return refused
    if record.used == usable:
        return Refused(15, 0)
    return prefix(record, body, declared, record.used + 1)


def back(record, body, declared, lent):
    """The position one bit before, or a refusal: "14, back at bit 0"."""
    refused = check_step(record, usable_bits(body, declared), lent)
    if refused:
        return refused
    if record.used == 0:
        return Refused(14, 0)
    return prefix(record, body, declared, record.used - 1)


def turn(record, body, declared, to, lent):
    """The refusal of the step that ends a turn to a number of bits, or None,
    and the position that it ends at; no position where 16 or 5 refuses all."""
    usable = usable_bits(body, declared)
    refused = check_step(record, usable, lent)
    if refused:
        return refused, None
    position = prefix(record, body, declared, min(to, usable))
    if isinstance(position, Refused):
        return position, prefix(record, body, declared, position.place)
    return Refused(15, 0) if to > usable else None, position


def too_large(data):
    """What txpshow does not take: "A file over 16,384 bytes, or one of at
    least 12 bytes with right letters and version", and, in document 02, "N from
    7 to 10"."""
    return (len(data) > SHOW_BYTES
            or len(data) >= HEADER_BYTES
            and data[:5] == b'TXP\x00\x01' and SHOW_N < data[5] <= N_LIMIT)


def show(data):
    """The whole text that txpshow prints for a file. Its values are by the
    midpoint."""
    if too_large(data):
        return 'too large\n'
    answer = decode_file(data, rule=midpoint)
    if isinstance(answer, Refused):
        return 'refused %d %d\n' % answer
    (N, L, P, declared, _), decoded = answer
    # in document 02 "the first line gains a last word"
    lines = ['TXP 1 %d %d %d %d %d %s' % (N, L, P, declared, decoded.used,
                                          decoded.ending)]
    for n, bits in enumerate(decoded.plane_bits):
        b = P - 1 - n
        standing, split = plane_figures(N, L, decoded.values, b)
        lines.append('plane %d %d %d %d' % (b, bits, standing, split))
    raster = to_raster(N, decoded.values)
    for start in range(0, 4 ** N, 2 ** N):
        lines.append(' '.join(map(str, raster[start:start + 2 ** N])))
    return '\n'.join(lines) + '\n'


def main(arguments):
    """The command line."""
    command, rest = arguments[0] if arguments else '', arguments[1:]
    if command == 'selftest' and rest in ([], ['full']):
        import selftest
        selftest.run(full=bool(rest))
    elif command == 'show' and len(rest) == 1:
        with open(rest[0], 'rb') as file:
            sys.stdout.write(show(file.read()))
    elif command == 'encode' and len(rest) in (3, 4):
        N, L, budget = map(int, rest[:3])
        numbers = [int(word) for word in sys.stdin.read().split()]
        if not check_sizes(N, L) and len(numbers) == 4 ** N:
            numbers = to_linear(N, numbers)
        answer = encode_file(N, L, numbers, budget)
        if isinstance(answer, Refused):
            print('refused %d %d' % answer)
        else:
            print(answer.P, len(answer.bits))
            print(answer.file.hex())
            if len(rest) == 4:
                with open(rest[3], 'wb') as file:
                    file.write(answer.file)
    elif command == 'vectors' and len(rest) == 2:
        import vectors
        vectors.write(rest[0], int(rest[1]))
    else:
        sys.exit(__doc__)


if __name__ == '__main__':
    main(sys.argv[1:])
