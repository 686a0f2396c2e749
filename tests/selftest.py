"""The checks of second.py: the samples of document 01, exhaustive comparisons
on small cases and random comparisons with the literal scan; both rules for a
value, by hand and by their laws on every cut that is compared; the transform
worked by hand, and compared with one that takes pair after pair; why the bits
ended, by hand and by every length of small bodies.

    python3 tests/second.py selftest [full]
"""

import math
import random
import time
from collections import namedtuple
from itertools import product
from operator import le

import literal
from arrays import STYLES, placed, random_array, random_bits, scattered
from second import (
    BUDGET, COEFFICIENT_LIMIT, CUT, DESC, GRAND, HEADER_BYTES, N_LIMIT, PIXEL,
    PLANE_LIMIT, SAMPLE_LEAST, SAMPLE_MOST, STEP, WHOLE, Decoder, Encoded,
    Record, Refused, back, bytes_for, decode, decode_body, decode_file, encode,
    encode_file, ended, forward, lacking, lent_after, linear_place,
    linear_places, lower, marks_after, midpoint, output_bytes, pack,
    parts_after, plane_count, plane_figures, read_file, restore, shape_of, show,
    start, stream_by_plane, summaries, to_coefficients, to_linear, to_raster,
    to_samples, transform, turn, worst_body, write_file)

NO_BUDGET = 2 ** 32 - 1

SAMPLE = to_linear(2, [5, -3, 0, 0, 0, 1, 2, 0, 0, 0, 0, -1, 0, 0, 0, 0])
SAMPLE_FILE = bytes.fromhex('54585000010201030000002580C9020B30')
# The text of document 01, with document 02's "last word".
SAMPLE_TEXT = '''\
TXP 1 2 1 3 37 37 whole
plane 2 8 7 0
plane 1 13 10 1
plane 0 16 13 1
5 -3 0 0
0 1 2 0
0 0 0 -1
0 0 0 0
'''

# The coefficients of docs/ezw-8x8.txt, in raster order.
EZW = [int(word) for word in '''
63 -34 49 10 7 13 -12 7 -31 23 14 -13 3 4 6 -1
15 14 3 -12 5 -7 3 9 -9 -7 -14 8 4 -2 3 2
-5 9 -1 47 4 6 -2 2 3 0 -3 2 3 -2 0 4
2 -3 6 -4 3 6 3 6 5 11 5 6 0 3 -4 4'''.split()]

# N, L and arrays with small streams, whose every cut is compared here and is
# one of the vectors. Where L is over 1, a GRAND is tested 0 in the plane that
# finds a child, and in a later one before the child is refined.
SMALL = (
    (2, 1, SAMPLE),
    (3, 1, placed(3, {0: 5, 3: -2, 9: 1, 17: 4, 18: -1, 40: -2, 63: 1})),
    (3, 2, placed(3, {0: -6, 2: 3, 5: 4, 7: -1, 9: 2, 21: 1, 50: -5, 63: 1})),
    (4, 2, placed(4, {1: 3, 14: -4, 17: 5, 25: 2, 70: -1, 200: -6, 203: 2,
                      255: 1})),
    (4, 3, placed(4, {0: 7, 3: -1, 6: -4, 8: 1, 27: 2, 36: 5, 37: -2, 109: -1,
                      255: -3})))

checks = 0


def equal(got, wanted, what):
    """One check."""
    global checks
    checks += 1
    if got != wanted:
        raise SystemExit('%s\n  got    %s\n  wanted %s' % (what, got, wanted))


def bits_of(text):
    """Bits written as a word of 0 and 1."""
    return [int(letter) for letter in text]


# Samples.

def nonzero(values):
    """The values other than 0, by place."""
    return {i: v for i, v in enumerate(values) if v}


def samples():
    """The "Sample values", starred and unstarred, and the text of txpshow."""
    equal(SAMPLE, [5, -3, 0, 1, 0, 0, 2, 0, 0, 0, 0, 0, 0, -1, 0, 0], 'linear')
    P, bits = encode(2, 1, SAMPLE, NO_BUDGET)
    equal(P, 3, 'planes')
    planes = stream_by_plane(2, 1, SAMPLE)
    equal([len(plane) for plane in planes], [8, 13, 16], 'bits of the planes')
    figures = [plane_figures(2, 1, SAMPLE, b) for b in (2, 1, 0)]
    equal(figures, [(7, 0), (10, 1), (13, 1)], 'parts and splits')
    equal(len(bits), 30 + 2 + 5, 'whole length')
    equal(pack(bits).hex(), '80c9020b30', 'body')
    equal(write_file(2, 1, 3, 37, bits), SAMPLE_FILE, 'file')

    def cut(count):
        answer = decode(2, 1, 3, bits[:count], midpoint)
        return nonzero(answer.values), answer.error

    equal(cut(1)[0], {}, '1 bit')
    equal(cut(2)[0], {0: 6}, '2 bits')
    equal(cut(8), ({0: 6}, 3), '8 bits')
    equal(cut(9), cut(8), '9 bits')
    equal(cut(21), ({0: 5, 1: -3, 6: 3}, 1), '21 bits')
    equal(cut(37), ({0: 5, 1: -3, 3: 1, 6: 2, 13: -1}, 0), '37 bits')
    equal(decode(2, 1, 1, bits_of('0000000')), Refused(12, 6), '0000000')
    equal(decode(2, 1, 1, bits_of('000010000')), Refused(12, 8), '000010000')
    equal(worst_body(2, 1, 3), 67, 'worst body')
    equal(decode(2, 1, 0, [0]), Refused(13, 0), 'P = 0 with one bit')
    zero = [0] * 16
    equal(encode_file(1, 1, [0] * 4, 0), Refused(1, 0), 'N = 1')
    equal(type(encode_file(2, 1, zero, 0)), Encoded, 'N = 2')
    equal(encode_file(2, 2, zero, 0), Refused(2, 0), 'L = N')
    equal(encode_file(10, 9, zero, 0), Refused(3, 0), 'N = 10')
    equal(encode_file(11, 10, zero, 0), Refused(1, 0), 'N = 11')
    for limit in (16_777_215, -16_777_215):
        equal(encode_file(2, 1, zero[1:] + [limit], 0).P, 24, 'at the limit')
    for over in (16_777_216, -16_777_216, -2 ** 31):
        A = zero[:9] + [over] * 7
        equal(encode_file(2, 1, A, 0), Refused(4, 9), 'over the limit')
    equal(show(SAMPLE_FILE), SAMPLE_TEXT, 'text of txpshow')
    equal(marks_after(2, 1, 3, []), [1] * 4 + [5, 0, 0, 0] * 3, 'start marks')


def listed(N, L, A):
    """The bits of each plane of SPIHT with its lists (002, section 3: "NLS uses
    the same set structures and partitioning rules as SPIHT")."""
    shape = shape_of(N, L)
    desc, grand = summaries(N, L, A)
    pixels = list(range(shape.D))
    sets = [(DESC, i) for i in range(shape.D // 4, shape.D)]
    found = []
    planes = []
    for b in reversed(range(plane_count(A))):
        bits, pixels_now, sets_now = [], pixels, sets
        pixels, sets, found_before = [], [], len(found)

        def test(i):
            bits.append(abs(A[i]) >> b & 1)
            if bits[-1]:
                bits.append(int(A[i] < 0))
                found.append(i)
            else:
                pixels.append(i)

        for i in pixels_now:
            test(i)
        for kind, i in sets_now:        # grows while it is read
            bits.append((desc if kind == DESC else grand)[i] >> b & 1)
            if not bits[-1]:
                sets.append((kind, i))
            elif kind == DESC:
                for c in shape.children(i):
                    test(c)
                if shape.has_grand(i):
                    sets_now.append((GRAND, i))
            else:
                sets_now += [(DESC, c) for c in shape.children(i)]
        bits += [abs(A[i]) >> b & 1 for i in found[:found_before]]
        planes.append(bits)
    return planes


def ezw():
    """002, section 3: "For the coefficients in the 8 by 8 example image given
    in [1], NLS and SPIHT happen to produce identical bitstreams." This holds
    for the first two planes, those that the example works through."""
    A = to_linear(3, EZW)
    planes = stream_by_plane(3, 2, A)
    equal(planes[:2], listed(3, 2, A)[:2], '8 by 8 example')
    # 63, -34, -31, 23; DESC(1) with 49; DESC(2); DESC(3); GRAND(1); GRAND(2)
    # with DESC(8), DESC(9) with 47, DESC(10), DESC(11).
    words = '10 11 0 0 1 10 0 0 0 1 0 0 0 0 0 0 1 0 1 0 10 0 0 0 0'
    equal(planes[0], bits_of(words.replace(' ', '')), 'its first plane')
    every_cut(3, 2, A)


# Rules for a value.

# Cuts of the sample worked by hand, from the table of docs/FORMAT.md that has
# for each bit what is known after it: the bits used, and the values other than
# 0 by lower and by the midpoint. Document 01 has those by the midpoint for 1, 2,
# 9, 21 and 37 bits.
RULED = (
    (1, {}, {}),                                # a test bit without its sign
    (2, {0: 4}, {0: 6}),                        # place 0: 4, down to 2
    (9, {0: 4}, {0: 6}),
    (10, {0: 4, 1: -2}, {0: 6, 1: -3}),         # place 1: -2, down to 1
    (20, {0: 4, 1: -2, 6: 2}, {0: 6, 1: -3, 6: 3}),
    (21, {0: 4, 1: -2, 6: 2}, {0: 5, 1: -3, 6: 3}),     # place 0: down to 1
    (24, {0: 4, 1: -2, 3: 1, 6: 2},             # place 3: 1, down to 0
     {0: 5, 1: -3, 3: 1, 6: 3}),
    (35, {0: 5, 1: -2, 3: 1, 6: 2, 13: -1},     # place 0: 5, down to 0
     {0: 5, 1: -3, 3: 1, 6: 3, 13: -1}),
    (37, {0: 5, 1: -3, 3: 1, 6: 2, 13: -1},     # all is known
     {0: 5, 1: -3, 3: 1, 6: 2, 13: -1}))

# The text of the cut after 21 bits, of which document 01 has the values.
RULED_TEXT = '''\
TXP 1 2 1 3 21 21 budget
plane 2 8 7 0
plane 1 13 10 1
5 -3 0 0
0 0 3 0
0 0 0 0
0 0 0 0
'''


def worked_rules():
    """The cuts worked by hand, of files and bodies by both rules and by the
    default; those of the stepped decoder and of txpshow by the midpoint."""
    enough = (16,) * 3
    first = start(2, 1, 3, enough).record
    _, bits = encode(2, 1, SAMPLE, NO_BUDGET)
    for count, low, middle in RULED:
        data = write_file(2, 1, 3, count, bits[:count])
        for wanted, rule in ((low, {}), (low, {'rule': lower}),
                             (middle, {'rule': midpoint})):
            equal(nonzero(decode_file(data, **rule)[1].values), wanted,
                  'a file by a rule')
            got = decode_body(2, 1, 3, SAMPLE_BODY, count, enough, **rule)
            equal(nonzero(got.values), wanted, 'a body by a rule')
        _, position = turn(first, SAMPLE_BODY, 37, count, enough)
        equal(nonzero(position.values), middle, 'a turn is by the midpoint')
    equal(show(write_file(2, 1, 3, 21, bits[:21])), RULED_TEXT,
          'txpshow is by the midpoint')


def upper(k, m):
    """The largest rule that document 02's bound is about."""
    return m + 2 ** k - 1 if m else 0


def rule_bounds():
    """Document 02: "any rule that gives 0 for m = 0 and else stays from m to
    m + 2^k - 1". Both rules are such; and the bound on single errors holds by
    the largest one, too."""
    for rule, k in product((lower, midpoint, upper), range(PLANE_LIMIT + 1)):
        equal(rule(k, 0), 0, 'a rule for m = 0')
        for m in (2 ** k, 2 ** (k + 1), 7 * 2 ** k):
            equal(m <= rule(k, m) <= m + 2 ** k - 1, True, 'a rule from m on')
    for N, L, A in SMALL:
        P, bits = encode(N, L, A, NO_BUDGET)
        for count in range(len(bits) + 1):
            answer = decode(N, L, P, bits[:count], upper)
            equal(all(abs(a - v) < 2 ** k for a, v, k
                      in zip(A, answer.values, answer.precisions)), True,
                  'own error by the largest rule')


# Index layer.

FIGURE_1 = '''
0 1 4 5 16 17 20 21
2 3 6 7 18 19 22 23
8 9 12 13 24 25 28 29
10 11 14 15 26 27 30 31
32 33 36 37 48 49 52 53'''.split()


def top_planes():
    """P, "the least P with every magnitude below 2^P", is what document 02
    has for it (T-03): "OR the magnitudes together and count the leading zeros
    once"."""
    rng = random.Random(8)
    arrays = list(product((0, 1, -2, 3, 4, -5, 8, -15), repeat=3))
    arrays += [[rng.randint(-2 ** k, 2 ** k - 1) for _ in range(k % 7 + 1)]
               for k in range(32) for _ in range(20)]
    for A in arrays:
        joined = 0
        for x in A:
            joined |= abs(x)
        digits = format(joined, '032b')
        zeros = len(digits) - len(digits.lstrip('0'))
        equal(plane_count(A), 32 - zeros, 'planes of %s' % (A,))


def trees():
    """Linear order, children, DESC, GRAND and the summaries, from the rules."""
    for raster, wanted in enumerate(FIGURE_1):
        equal(linear_place(3, raster), int(wanted), 'figure 1 of 002')
    rng = random.Random(1)
    for N in range(2, N_LIMIT + 1):
        places = list(range(4 ** N))
        for raster in places if N < 8 else rng.sample(places, 1000):
            equal(linear_places(N)[raster], linear_place(N, raster), 'place')
        equal(sorted(linear_places(N)), places, 'bijection')
        equal(to_raster(N, to_linear(N, places)), places, 'inverse')
    for N in range(2, 6):
        for L in range(1, N):
            shape = shape_of(N, L)
            I, D = shape.I, shape.D

            def ancestors(m):
                while m >= D:
                    m //= 4
                    yield m

            lines = {m: list(ancestors(m)) for m in range(I)}
            A = random_array(rng, N, 24, 'lengths')
            tables = summaries(N, L, A)
            for i in range(I // 4):
                wanted = [m for m in range(I) if i in lines[m]]
                equal(sorted(shape.members(DESC, i)), wanted, 'DESC')
                wanted_or = 0
                for m in wanted:
                    wanted_or |= abs(A[m])
                equal(tables[0][i], wanted_or, 'DESC summary')
                if i < I // 16:
                    wanted = [m for m in wanted if m // 4 != i]
                    equal(sorted(shape.members(GRAND, i)), wanted, 'GRAND')
                else:
                    equal([m for m in wanted if m // 4 != i], [], 'no GRAND')
            equal(len(tables[1]), I // 16, 'GRAND entries')
            equal(tables[0][:D // 4] + tables[1][:D // 4], [0] * (D // 4 * 2),
                  'entries below D/4')


# Answers one by one.

Asked = namedtuple('Asked', 'b stage what place bit')


def asked(N, L, P, bits):
    """What each bit of a stream's beginning answers, by the literal scan: its
    plane and pass, what is asked at which place, and the bit."""
    answers = []

    def next_bit(what, place, b, mark):
        if len(answers) == len(bits):
            raise literal.NoNextBit
        stage = ('refinement' if what == 'refine' else
                 'pixel' if mark[place] == literal.MIP else 'set')
        answers.append(Asked(b, stage, what, place, bits[len(answers)]))
        return answers[-1].bit

    literal.scan(N, L, P, next_bit)
    return answers


def own_read(answers, b):
    """The coefficients whose own bit of plane b was read, with its sign where
    one follows."""
    return [one.place for one in answers if one.b == b
            and (one.what in ('sign', 'refine')
                 or one.what == 'own' and one.bit == 0)]


def set_zeros(shape, answers, b):
    """The members of the sets tested 0 in plane b, set after set."""
    members = []
    for one in answers:
        if one.b == b and one.bit == 0 and one.what in ('desc', 'grand'):
            kind = DESC if one.what == 'desc' else GRAND
            members += shape.members(kind, one.place // STEP[kind])
    return members


def own_map(shape, answers, last):
    """The precisions of own bits alone, as document 01 has them; last is the
    last finished plane, or P."""
    precisions = [last] * shape.I
    for i in own_read(answers, last - 1):
        precisions[i] = last - 1
    return precisions


def both_values(a, k):
    """The values of a coefficient that is known to precision k, by lower and by
    the midpoint."""
    m, half = abs(a) - abs(a) % 2 ** k, 2 ** k // 2 if abs(a) >= 2 ** k else 0
    return (-m, -m - half) if a < 0 else (m, m + half)


# Comparisons on random arrays.

def compare_cut(N, L, A, budget):
    """One cut: bits, marks, values by both rules and precisions against the
    literal scan, and the bounds on the error. Gives the precisions, and at how
    many places the midpoint is off by half of 2^k."""
    P, bits, mark = literal.encode(N, L, A, budget)
    equal(encode(N, L, A, budget), (P, bits), 'bits')
    answer = decode(N, L, P, bits)
    lows, middles, precisions, marks, last, record, by_itself = literal.decode(
        N, L, P, bits)
    equal(answer.marks, mark, 'marks of the encoder')
    equal(answer.marks, marks, 'marks of the decoder')
    equal(answer.values, lows, 'values by lower')
    equal(answer.precisions, precisions, 'precisions')
    equal(answer.used, len(bits), 'used')
    equal(answer.record, record, 'record')
    equal(answer.ending, WHOLE if by_itself else None, 'whole')
    equal((answer.finished, answer.error), (P - last, 2 ** last - 1), 'error')
    equal(decode(N, L, P, bits, midpoint), answer._replace(values=middles),
          'values by the midpoint, and the same answer else')
    for values in lows, middles:
        # "differs nowhere by more than the worst error"
        equal(max(abs(a - v) for a, v in zip(A, values)) <= answer.error, True,
              'worst error')
        equal(all(abs(a) >> k == abs(v) >> k and (v == 0 or (a < 0) == (v < 0))
                  for a, v, k in zip(A, values, precisions)), True,
              'known bits')
        # document 02: "each coefficient is wrong by less than 2^k of its own k"
        equal(all(abs(a - v) < 2 ** k
                  for a, v, k in zip(A, values, precisions)), True,
              'own error')
    # document 02, T-04: "Values don't change"
    before = own_map(shape_of(N, L), asked(N, L, P, bits), last)
    equal(list(zip(lows, middles)), list(map(both_values, A, before)),
          'values of own bits alone')
    return precisions, compare_rules(A, lows, middles, precisions)


def compare_rules(A, lows, middles, precisions):
    """The laws of the two rules at one cut of an array's stream. Gives at how
    many places the midpoint is off by half of 2^k."""
    # document 02: "Midpoints make quiet partials louder than composed"
    equal(all(abs(v) <= abs(a) for a, v in zip(A, lows)), True,
          'lower is no larger')
    equal([low != middle for low, middle in zip(lows, middles)],
          [k > 0 and abs(a) >= 2 ** k for a, k in zip(A, precisions)],
          'the rules differ where something is known and not all')
    off = [(2 * abs(a - v), 2 ** k) for a, v, k in zip(A, middles, precisions)
           if v and k]
    equal(all(twice <= most for twice, most in off), True,
          'the midpoint is off by at most half of 2^k')
    return sum(twice == most for twice, most in off)


def every_cut(N, L, A):
    """All cuts of a stream in turn. No bit makes a precision larger, and the
    last bit of a plane leaves its number everywhere. Gives how often the
    midpoint is off by half of 2^k."""
    ends = [0]
    for plane in stream_by_plane(N, L, A):
        ends.append(ends[-1] + len(plane))
    P = plane_count(A)
    last, all_halves = [P] * 4 ** N, 0
    for cut in range(ends[-1] + 1):
        precisions, halves = compare_cut(N, L, A, cut)
        equal(all(map(le, precisions, last)), True, 'no precision is larger')
        if cut in ends:
            equal(precisions, [P - ends.index(cut)] * 4 ** N, 'end of a plane')
        last = precisions
        all_halves += halves
    return all_halves


def compare_planes(N, L, A):
    """Plane by plane: the count of bits from the parts that stand, the sizes of
    the parts, and the bound; and each coefficient's precision from the answers
    of the plane alone, so that its end changes none."""
    shape = shape_of(N, L)
    P = plane_count(A)
    planes = stream_by_plane(N, L, A)
    whole = [bit for plane in planes for bit in plane]
    answer = decode(N, L, P, whole)
    answers = asked(N, L, P, whole)
    equal(answer.values, A, 'whole stream')
    equal(answer.plane_bits, [len(plane) for plane in planes], 'bits by plane')
    total_parts = total_split = 0
    for n, plane in enumerate(planes):
        b = P - 1 - n
        parts = parts_after(N, L, A, b)
        size = (len(parts.alone)
                + sum(len(shape.members(DESC, i)) for i in parts.desc)
                + sum(len(shape.members(GRAND, i)) for i in parts.grand))
        equal(size, shape.I, 'sizes add up to I')
        # its own bit was read, or else one set that holds it tested 0
        equal(sorted(own_read(answers, b) + set_zeros(shape, answers, b)),
              list(range(shape.I)), 'answers of a plane')
        standing, split = plane_figures(N, L, A, b)
        found = sum(2 ** b <= abs(a) < 2 ** (b + 1) for a in A)
        equal(len(plane), standing + split + found, 'bits of a plane')
        total_parts += standing
        total_split += split
        total_found = sum(abs(a) >= 2 ** b for a in A)
        so_far = sum(answer.plane_bits[:n + 1])
        equal(so_far, total_parts + total_split + total_found, 'bits so far')
        equal(so_far <= worst_body(N, L, n + 1), True, 'bound')
    equal([sorted(plane) for plane in listed(N, L, A)],
          [sorted(plane) for plane in planes], 'SPIHT, in another order')


def random_arrays(count):
    """Random arrays of every style, mostly small."""
    rng = random.Random(2)
    for n in range(count):
        N = rng.choice((2, 2, 2, 3, 3, 4))
        L = rng.randint(1, N - 1)
        P = rng.choice((0, 1, 2, 3, 4, 5, 6, 24))
        A = random_array(rng, N, P, STYLES[n % len(STYLES)])
        compare_planes(N, L, A)
        length = sum(map(len, stream_by_plane(N, L, A)))
        for budget in (0, rng.randint(0, length), rng.randint(0, length),
                       length + 1):
            compare_cut(N, L, A, budget)
    for N, L in ((5, 1), (5, 4), (6, 2), (6, 5)):
        A = random_array(rng, N, 9, 'decay')
        compare_planes(N, L, A)
        length = sum(map(len, stream_by_plane(N, L, A)))
        compare_cut(N, L, A, rng.randint(0, length))


def small_streams():
    """Every cut of small streams, in each of which a value by the midpoint is
    as far off as it can be."""
    rng = random.Random(9)
    for N, L, A in SMALL:
        equal(every_cut(N, L, A) > 0, True, 'half of 2^k is reached')
        every_cut(N, L, scattered(rng, N, 3))


def large_arrays():
    """The start table of each shape of a large N, and cut streams."""
    start = marks_after(10, 9, 0, [])
    equal([start[4 ** k] for k in range(10)],
          [1, 5, 7, 8, 9, 10, 11, 12, 13, 14], 'MD and MN2 to MN9')
    for N in (9, 10):
        for L in range(1, N):
            equal(marks_after(N, L, 0, []), literal.scan(N, L, 0, None),
                  'start marks')
    rng = random.Random(6)
    for N, L in ((9, 3), (9, 8), (10, 9)):
        A = scattered(rng, N, 3)
        length = sum(map(len, stream_by_plane(N, L, A)))
        compare_cut(N, L, A, rng.randint(length // 2, length))


def worst_bodies():
    """The worst body is reached by an array of greatest magnitudes, and has
    its number of bits in 32."""
    for N in range(2, 6):
        for L in range(1, N):
            for P in (0, 1, 2, 3):
                A = [2 ** P - 1] * 4 ** N
                equal(len(encode(N, L, A, NO_BUDGET)[1]), worst_body(N, L, P),
                      'worst body')
    equal(worst_body(10, 9, 24), 26_542_078, 'worst body of all')
    equal(max(worst_body(N, L, 24) for N in range(2, N_LIMIT + 1)
              for L in range(1, N)), 26_542_078, 'worst body of all')


# Acceptance.

def brute_force(N, L, P, ceiling):
    """Every array of exactly P planes whose bits lie in the ceiling: a bit is
    refused exactly if no such array's stream goes on so."""
    trie = [None, None]
    signs = set()
    ends = set()
    streams = []
    submasks = [[m for m in range(top + 1) if m | top == top]
                for top in ceiling]
    for A in product(*submasks):
        if plane_count(A) != P:
            continue
        _, bits = encode(N, L, list(A), NO_BUDGET)
        _, mirrored = encode(N, L, [-a for a in A], NO_BUDGET)
        equal(decode(N, L, P, bits, ceiling=ceiling).values, list(A),
              'an array fits')
        equal(decode(N, L, P, mirrored).used, len(bits), 'signs are free')
        node = trie
        for bit, other in zip(bits, mirrored):
            if bit != other:
                signs.add(id(node))
            if node[bit] is None:
                node[bit] = [None, None]
            node = node[bit]
        ends.add(id(node))
        streams.append(bits)
    seen = set()
    for bits in streams:
        node = trie
        for n in range(len(bits) + 1):
            if id(node) not in signs and id(node) not in seen:
                seen.add(id(node))
                for bit in (0, 1):
                    if node[bit] is None:
                        number = 13 if id(node) in ends else 12
                        equal(decode(N, L, P, bits[:n] + [bit],
                                     ceiling=ceiling),
                              Refused(number, n), 'no array fits')
            if n < len(bits):
                node = node[bits[n]]


def all_small(full):
    """The exhaustive comparison on small cases. With `full`, over every array
    of N = 2 with P = 1, and else over those with few coefficients."""
    for places in ((0, 1, 2, 3), range(4, 8), range(12, 16)):
        ceiling = [0] * 16
        for i in list(places) + [3, 4, 9, 10, 11, 15]:
            ceiling[i] = 1
        brute_force(2, 1, 1, ceiling)
    rng = random.Random(3)
    for _ in range(40 if full else 6):
        for N, L, places in ((2, 1, range(16)),
                             (3, 1, list(range(16)) + list(range(60, 64))),
                             (3, 2, list(range(2, 8)) + list(range(16, 32))),
                             (3, 2, list(range(4, 8)) + list(range(16, 24)))):
            P = rng.randint(1, 3)
            ceiling = [0] * 4 ** N
            for _ in range(8):
                ceiling[rng.choice(list(places))] |= 1 << rng.randrange(P)
            ceiling[rng.choice(list(places))] |= 1 << P - 1
            brute_force(N, L, P, ceiling)
    if full:
        brute_force(2, 1, 1, [1] * 16)


def first_clash(N, L, P, bits):
    """The number and kind of the first 0 that the marks forbid, or None.

    (a) plane P-1, the set at 4D-4, all bits so far 0; (b) the fourth of four
    siblings just split, the others 0, without grandchildren; (c) a GRAND whose
    four children are not found; (d) the fourth of four sets of one GRAND, the
    others unsplit, below the first sets.
    """
    I, D = 4 ** N, 4 ** (N - L)
    used = 0
    clash = None

    def forbidden(what, i, b, mark):
        if what == 'desc' and i < 4 * D:
            return ('a' if b == P - 1 and i == 4 * D - 4
                    and not any(bits[:used]) else None)
        if what == 'desc':
            return ('d' if i // 4 % 4 == 3 and mark[i - 12] == mark[i - 8]
                    == mark[i - 4] == literal.MD else None)
        if what == 'grand':
            return 'c' if mark[i // 4:i // 4 + 4] == [literal.MIP] * 4 else None
        if what == 'own' and mark[i] == literal.MCP:
            return ('b' if i % 4 == 3 and mark[i - 3:i] == [literal.MIP] * 3
                    and 4 * (i - 3) >= I else None)
        return None

    def next_bit(what, i, b, mark):
        nonlocal used, clash
        if used == len(bits):
            raise literal.NoNextBit
        if bits[used] == 0:
            kind = forbidden(what, i, b, mark)
            if kind:
                clash = used, kind
                raise literal.NoNextBit
        used += 1
        return bits[used - 1]

    literal.scan(N, L, P, next_bit)
    return clash


def clash_kind(decoder):
    """The kind of contradiction in which a decoder ended, as first_clash."""
    kind, i = decoder.question
    if kind == PIXEL:
        return 'b'
    if kind == GRAND:
        return 'c'
    return 'a' if i < decoder.shape.D else 'd'


def random_bodies(count):
    """Random bodies: the greatest array refuses where the marks do, and what
    it accepts begins the stream of an array."""
    rng = random.Random(4)
    kinds = dict.fromkeys('abcd', 0)
    for n in range(count):
        N = rng.choice((2, 2, 3, 3, 4))
        L = rng.randint(1, N - 1)
        P = rng.randint(1, 4)
        style = STYLES[n % len(STYLES)]
        _, stream = encode(N, L, random_array(rng, N, P, style), NO_BUDGET)
        keep = rng.choice((0, rng.randint(0, len(stream))))
        ones = rng.choice((0.05, 0.15, 0.3, 0.5, 0.8))
        bits = stream[:keep] + random_bits(rng, rng.randint(0, 200), ones)
        decoder = Decoder(N, L, P, bits)
        refused = decoder.run()
        clash = first_clash(N, L, P, bits)
        if refused and refused.number == 12:
            equal((refused.place, clash_kind(decoder)), clash, 'contradiction')
            kinds[clash[1]] += 1
            bits = bits[:refused.place]
        else:
            equal(None, clash, 'no contradiction')
            if refused:
                bits = bits[:refused.place]
        # The greatest array has exactly P planes and a stream that begins so.
        decoder = Decoder(N, L, P, bits)
        equal(decoder.run(), None, 'accepted')
        A = [-a if negative else a for a, negative
             in zip(decoder.greatest.array(), decoder.negative)]
        equal(encode(N, L, A, len(bits)), (P, bits), 'an array fits')
        # It has every bit below a precision, and those known from there on.
        answer = decode(N, L, P, bits)
        equal([abs(v) >> k << k | (1 << k) - 1 for v, k
               in zip(answer.values, answer.precisions)],
              list(map(abs, A)), 'no more is known')
    for kind in kinds:
        equal(kinds[kind] > 0, True, 'kind ' + kind)


# Stepped decoder.

def by_steps(position, body, declared, to, lent):
    """What a turn answers, by single steps."""
    while position.used != to:
        step = forward if position.used < to else back
        got = step(position.record, body, declared, lent)
        if isinstance(got, Refused):
            return got, position
        position = got
    return None, position


def turns(count):
    """A turn ends where single steps end, and with the same refusal; what it
    ends at is what decoding that prefix leaves. A step back undoes a step
    forward. Where a step forward finds a bit to answer with, the word is that
    bits go on; where 13 refuses it, `whole`; and where 15 does, the word of
    the body up to there."""
    rng = random.Random(7)
    seen = dict.fromkeys((None, 12, 13, 15), 0)
    words = dict.fromkeys((None, WHOLE, BUDGET, CUT), 0)
    for n in range(count):
        N = rng.choice((2, 2, 3))
        L, P = rng.randint(1, N - 1), rng.randint(0, 3)
        _, bits = encode(N, L, random_array(rng, N, P, STYLES[n % 7]),
                         NO_BUDGET)
        more = random_bits(rng, rng.randint(0, 20), rng.choice((0.1, 0.5)))
        if rng.random() < 0.7:
            bits = bits[:rng.randint(0, len(bits))]
        if n % 5 == 0:
            # whole bytes of the stream, so that any bits declared past them
            # are not there
            bits, more = bits[:len(bits) // 8 * 8], []
        body = pack(bits + more)
        declared = rng.choice((len(bits), len(bits + more), NO_BUDGET))
        most = min(declared, 8 * len(body))
        lent = (4 ** N,) * 3
        position = start(N, L, P, lent)
        equal(position.ending, None if P else WHOLE, 'the word of a start')
        position = ended(position, declared, body)
        for _ in range(6):
            to = rng.randint(0, most + 1)
            wanted = by_steps(position, body, declared, to, lent)
            refused, position = turn(position.record, body, declared, to, lent)
            equal((refused, position), wanted, 'a turn by steps')
            seen[refused and refused.number] += 1
            equal(position._replace(ending=None), decode(
                N, L, P, (bits + more + [0] * 8)[:position.used], midpoint
                )._replace(ending=None), 'the prefix decoded')
            on = forward(position.record, body, declared, lent)
            if not isinstance(on, Refused):
                equal(back(on.record, body, declared, lent), position,
                      'a bit forward and back')
            word = (None if not isinstance(on, Refused) or on.number == 12 else
                    WHOLE if on.number == 13 else
                    literal.ending(N, L, P, body, declared))
            equal(position.ending, word, 'the word of a position')
            words[word] += 1
    for number in seen:
        equal(seen[number] > 0, True, 'turns that end with %s' % number)
    for word in words:
        equal(words[word] > 9, True, 'positions with the word %s' % word)


def step_refusals():
    """Any faults together: "16 first, then 5", then 14 or 15; each field of a
    record out of range; a start checks 1, 2, 9, 5."""
    P, bits = encode(2, 1, SAMPLE, NO_BUDGET)
    body, enough = pack(bits), (16, 16, 16)
    position = decode(2, 1, P, bits[:20])
    equal(position.record, Record(2, 1, 3, 1, 2, 0, 20, 0), 'a record')
    equal(decode(2, 1, P, bits).record, Record(2, 1, 3, 0, 2, 16, 37, 0),
          'the record at the end')
    equal(start(2, 1, 0, enough).record, Record(2, 1, 0, 0, 2, 16, 0, 0),
          'the record of P = 0')
    equal(start(2, 1, 3, enough).record, Record(2, 1, 3, 2, 0, 0, 0, 0),
          'the first record')
    equal(decode(2, 1, 3, bits[:1]).record, Record(2, 1, 3, 2, 0, 0, 1, 1),
          'a pending sign')
    largest = 2 ** 32 - 1
    for name, wrong in (('N', (0, 1, 11, largest)), ('L', (0, 2, largest)),
                        ('P', (0, 1, 25, largest)), ('plane', (3, largest)),
                        ('stage', (3, largest)), ('place', (16, 17, largest)),
                        ('used', (38, 41, largest)), ('pending', (2, largest))):
        for x in wrong:
            record = position.record._replace(**{name: x})
            for step in (forward, back):
                equal(step(record, body, 37, enough), Refused(16, 0), name)
            equal(turn(record, body, 37, x, enough), (Refused(16, 0), None),
                  name)
    end = decode(2, 1, P, bits).record
    for change in ({'plane': 1}, {'stage': 1}, {'place': 17}, {'pending': 1},
                   {'used': 41}):
        equal(forward(end._replace(**change), body, largest, enough),
              Refused(16, 0), 'at the end, but %s' % change)
    for unfit, short, spent in product((False, True), repeat=3):
        lent = (16, 15, 16) if short else enough
        for step, used, number in ((back, 0, 14), (forward, 20, 15)):
            record = position.record._replace(
                used=used if spent else 10, place=16 if unfit else 0)
            got = step(record, body, 20, lent)
            equal(got.number if isinstance(got, Refused) else None,
                  16 if unfit else 5 if short else number if spent else None,
                  'faults of a step')
    for faults in product((False, True), repeat=4):
        N, L, P, lent = ((wrong if fault else right) for fault, wrong, right in
                         zip(faults, (1, 0, 25, (16, 16, 15)),
                             (2, 1, 3, enough)))
        got = start(N, L, P, lent)
        first = next((number for number, fault in zip((1, 2, 9, 5), faults)
                      if fault), None)
        equal(got.number if isinstance(got, Refused) else None, first,
              'faults of a start')


# Transform.

# Worked by hand. The pairs of the rows: 5, 2 has low 3 and high 3; -3, 0 has
# low -2, the floor of -3/2, and high -3; and so on, which gives the rows
#      3  -2   3  -3
#     -2   1   1  11
#     -4   1   7   0
#     -3  -6 -11   1
# Then the pairs of the columns: 3, -2 has low 0 and high 5; -4, -3 has low -4,
# the floor of -7/2, and high -1; and so on.
SQUARE = [5, 2, -3, 0,
          -1, -2, 7, -4,
          0, -7, 1, 1,
          -8, 3, -5, -6]
CHANGED = [0, -1, 2, 4,
           -4, -3, -2, 0,
           5, -3, 2, -14,
           -1, 7, 18, -1]

# The quarters of CHANGED in turn.
CHANGED_LINEAR = [0, -1, -4, -3, 2, 4, -2, 0, 5, -3, -1, 7, 2, -14, 18, -1]

# The largest magnitude that a coefficient has: a high of two highs.
LARGEST = 2 * (SAMPLE_MOST - SAMPLE_LEAST)


def by_pairs(N, L, samples, rows_first=True, towards_zero=False):
    """The transform by one pair after the other, as a raster array; also with
    the columns first, or with lows rounded towards 0."""
    width, square = 2 ** N, list(samples)

    def pairs(start, step, half):
        """The pairs of the row or column that begins at a place."""
        old = list(square)
        for k in range(half):
            a, b = (old[start + step * (2 * k + n)] for n in (0, 1))
            half_sum = (a + b) / 2
            low = int(half_sum) if towards_zero else math.floor(half_sum)
            square[start + step * k] = low
            square[start + step * (half + k)] = a - b

    for j in range(L):
        side = width >> j
        for rows in (rows_first, not rows_first):
            for k in range(side):
                pairs(*((k * width, 1) if rows else (k, width)), side // 2)
    return square


def checkered(N, side, first, other):
    """A raster array of squares of this side, of one sample or the other in
    turn."""
    return [(first, other)[(row // side + column // side) % 2]
            for row in range(2 ** N) for column in range(2 ** N)]


def worked_transform():
    """The example by hand, both ways, and the rule for single pairs."""
    equal(to_coefficients(2, 1, SQUARE), CHANGED_LINEAR, 'worked by hand')
    equal(to_raster(2, CHANGED_LINEAR), CHANGED, 'its coefficients in raster')
    equal(to_samples(2, 1, CHANGED_LINEAR), SQUARE, 'worked back')
    equal(by_pairs(2, 1, SQUARE), CHANGED, 'by pairs')
    for a, b, low, high in ((1, 0, 0, 1), (0, 1, 0, -1), (-1, 0, -1, -1),
                            (0, -1, -1, 1), (-2, -1, -2, -1), (3, 3, 3, 0),
                            (SAMPLE_MOST, SAMPLE_LEAST, -1, 65_535),
                            (SAMPLE_LEAST, SAMPLE_MOST, -1, -65_535)):
        # all rows alike: each column has a low of its own number and a high 0
        linear = to_coefficients(2, 1, [a, b, a, b] * 4)
        equal(linear, [low] * 4 + [high] * 4 + [0] * 8, 'a pair of a row')
        equal(to_samples(2, 1, linear), [a, b, a, b] * 4, 'a pair of a row')
        linear = to_coefficients(2, 1, ([a] * 4 + [b] * 4) * 2)
        equal(linear, [low] * 4 + [0] * 4 + [high] * 4 + [0] * 4,
              'a pair of a column')


def sample_arrays(rng, N):
    """Arrays of samples: random in several ranges, and of extremes."""
    I, least, most = 4 ** N, SAMPLE_LEAST, SAMPLE_MOST
    for low, high in ((least, most), (-3, 3), (least, least + 3),
                      (most - 3, most)):
        yield [rng.randint(low, high) for _ in range(I)]
    yield [rng.choice((least, most)) for _ in range(I)]
    yield [least] * I
    yield [most] * I
    for first, other in ((least, most), (most, least)):
        for j in range(N):
            yield checkered(N, 2 ** j, first, other)


def transforms():
    """Forward then back is exact; the levels after the first are those of the
    first quarter as a square of samples; columns before rows, or lows rounded
    towards 0, give other coefficients."""
    rng = random.Random(10)
    columns_differ = zeros_differ = 0
    for N in range(2, 7):
        for A in sample_arrays(rng, N):
            changed = by_pairs(N, N - 1, A)
            columns_differ += changed != by_pairs(N, N - 1, A, rows_first=False)
            zeros_differ += changed != by_pairs(N, N - 1, A, towards_zero=True)
            once = to_coefficients(N, 1, A)
            for L in range(1, N):
                linear = to_coefficients(N, L, A)
                equal(linear, to_linear(N, by_pairs(N, L, A)), 'by pairs')
                equal(to_samples(N, L, linear), A, 'forward then back')
                equal(restore(N, L, linear), A, 'taken')
                if L > 1:
                    lows = to_raster(N - 1, once[:4 ** (N - 1)])
                    equal(linear, to_coefficients(N - 1, L - 1, lows)
                          + once[4 ** (N - 1):], 'levels')
    equal(columns_differ > 0, True, 'columns first differ')
    equal(zeros_differ > 0, True, 'rounding towards 0 differs')
    A = [rng.randint(SAMPLE_LEAST, SAMPLE_MOST) for _ in range(4 ** N_LIMIT)]
    equal(to_samples(N_LIMIT, N_LIMIT - 1, to_coefficients(
        N_LIMIT, N_LIMIT - 1, A)) == A, True, 'forward then back')


def magnitudes():
    """The largest magnitude: "every coefficient's magnitude is at most
    131,072". Four samples decide the four coefficients of a level, and each of
    these is largest where they are extremes; lows are in the samples' range."""
    def largest(N, L, A):
        return max(map(abs, to_coefficients(N, L, A)))

    extremes = SAMPLE_LEAST, SAMPLE_MOST
    for a, b, c, d in product(extremes, repeat=4):
        A = ([a, b] * 2 + [c, d] * 2) * 2
        equal(largest(2, 1, A) <= LARGEST, True, 'magnitude')
        equal(min(extremes) <= min(to_coefficients(2, 1, A)[:4])
              and max(to_coefficients(2, 1, A)[:4]) <= max(extremes), True,
              'lows are in range')
    equal(LARGEST, 131_070, 'the largest magnitude')
    rng = random.Random(11)
    for N in range(2, 7):
        for L in range(1, N):
            for A in sample_arrays(rng, N):
                equal(largest(N, L, A) <= LARGEST, True, 'magnitude')
            for j, (first, other) in product(range(L), (extremes,
                                                        extremes[::-1])):
                equal(largest(N, L, checkered(N, 2 ** j, first, other)),
                      LARGEST, 'the largest magnitude is reached')


def restored():
    """Back then forward gives the coefficients wherever it is not refused, and
    it is refused exactly where a sample is out of range."""
    rng = random.Random(12)
    seen = dict.fromkeys((None, 18), 0)
    for n in range(1500):
        N = rng.choice((2, 2, 3, 4))
        L, I = rng.randint(1, N - 1), 4 ** N
        most = rng.choice((3, 9000, 30_000, LARGEST, COEFFICIENT_LIMIT))
        if n % 2:
            linear = [rng.randint(-most, most) for _ in range(I)]
        else:
            linear = to_coefficients(N, L, [rng.randint(-most, most)
                                            for _ in range(I)])
            if max(map(abs, linear)) > COEFFICIENT_LIMIT - most:
                continue
            linear[rng.randrange(I)] += rng.choice((1, -1, most, -most))
        samples = to_samples(N, L, linear)
        equal(to_coefficients(N, L, samples), linear, 'back then forward')
        inside = (SAMPLE_LEAST <= min(samples) and max(samples) <= SAMPLE_MOST)
        got = restore(N, L, linear)
        equal(got, samples if inside else Refused(18, 0), 'a restored sample')
        seen[None if inside else 18] += 1
    for number in seen:
        equal(seen[number] > 99, True, 'restored with %s' % number)


def transform_refusals():
    """Any faults together: 17 and 18 "both after 1, 2, 3 and 5, and on the
    inverse 4 stands between 3 and 5"; what is left in the lent tables."""
    for faults in product((False, True), repeat=6):
        wrong = {number for number, fault
                 in zip((1, 2, 3, 4, 5, 17), faults) if fault}
        N, L = 1 if 1 in wrong else 2, 0 if 2 in wrong else 1
        lent = (16, 15) if 5 in wrong else (16, 16)
        more = [0] * (3 in wrong)
        if 4 not in wrong:
            A = [0] * 10 + [SAMPLE_MOST + (17 in wrong)] * 6 + more
            check_first(transform(N, L, A, lent), wrong, (1, 2, 3, 5, 17), 10)
        wrong = {18 if number == 17 else number for number in wrong}
        A = [SAMPLE_LEAST] * 4 + [0] * 12 + more
        A[3] -= 18 in wrong
        A[9] = COEFFICIENT_LIMIT + 1 if 4 in wrong else 0
        check_first(restore(N, L, A, lent), wrong, (1, 2, 3, 4, 5, 18),
                    9 if 4 in wrong else 0)
    for outside in (SAMPLE_LEAST - 1, SAMPLE_MOST + 1, -2 ** 31, 2 ** 31 - 1):
        for place in range(16):
            A = [0] * 16
            A[place] = A[15] = outside
            equal(transform(2, 1, A), Refused(17, place), 'place of 17')
    for lent in ((15, 16), (16, 15), (0, 0)):
        equal(transform(2, 1, SQUARE, lent), Refused(5, 0), 'short')
        equal(restore(2, 1, CHANGED_LINEAR, lent), Refused(5, 0), 'short')
    zeros = [0] * 16
    for got, wanted in ((transform(2, 1, SQUARE), (CHANGED_LINEAR, zeros)),
                        (restore(2, 1, CHANGED_LINEAR), (SQUARE, zeros)),
                        (Refused(18, 0), (zeros, zeros)),
                        (Refused(17, 3), ((), ())), (Refused(5, 0), ((), ())),
                        (Refused(4, 9), ((), ()))):
        equal(lent_after(2, got), wanted, 'what is left')


def check_first(got, wrong, order, place):
    """The first number of an order that is wrong, or none; 4 and 17 report a
    place."""
    first = next((number for number in order if number in wrong), None)
    equal(got.number if isinstance(got, Refused) else None, first,
          'faults %s' % sorted(wrong))
    if first:
        equal(got.place, place if first in (4, 17) else 0,
              'place of %d' % first)


# Files.

def decode_refusals():
    """Any faults together give the first of them in the order "7, 8, 1, 2, 9,
    10, 11, 5, then 12 or 13"."""
    order = (7, 8, 1, 2, 9, 10, 11, 5, 12)
    for faults in product((False, True), repeat=len(order)):
        wrong = {number for number, fault in zip(order, faults) if fault}
        if {10, 11} <= wrong:
            continue
        bits = [0] * 37 if 12 in wrong else encode(2, 1, SAMPLE, 37)[1]
        data = bytearray(write_file(
            1 if 1 in wrong else 2, 0 if 2 in wrong else 1,
            25 if 9 in wrong else 3, 37, bits, 2 if 8 in wrong else 1,
            b'TXp' if 7 in wrong else b'TXP'))
        if 11 in wrong:
            data[-1] |= 1
        if 10 in wrong:
            data.append(0)
        lent = (16, 15, 16) if 5 in wrong else (16, 16, 16)
        answer = decode_file(bytes(data), lent)
        first = next((number for number in order if number in wrong), None)
        number = answer.number if isinstance(answer, Refused) else None
        equal(number, first, 'faults %s' % sorted(wrong))
        if first == 12:
            equal(answer.place, 6, 'place of 12')


def encode_refusals():
    """Any faults together: "Encoding checks 1 to 6 in that order"."""
    for faults in product((False, True), repeat=6):
        wrong = {number for number, fault in enumerate(faults, 1) if fault}
        A = SAMPLE[:15] + [16_777_216 if 4 in wrong else 0]
        A += [0] if 3 in wrong else []
        P = 25 if 4 in wrong else 3
        need = output_bytes(2, 1, P, 40)
        answer = encode_file(
            1 if 1 in wrong else 2, 0 if 2 in wrong else 1, A, 40,
            (4, 0 if 5 in wrong else 1, 16, need - (6 in wrong)))
        first = min(wrong, default=None)
        number = answer.number if isinstance(answer, Refused) else None
        equal(number, first, 'faults %s' % sorted(wrong))
        if first == 4:
            equal(answer.place, 15, 'place of 4')


def files():
    """Usable bits, and the rules of txpshow."""
    short = SAMPLE_FILE[:-2]
    equal(len(read_file(short).bits), 24, 'short file')
    huge = SAMPLE_FILE[:8] + b'\xff' * 4
    equal(len(read_file(huge + SAMPLE_FILE[12:16]).bits), 32, 'huge declared')
    equal(show(huge + SAMPLE_FILE[12:]), 'refused 13 37\n', 'padding is usable')
    empty = b'TXP\0\1\2\1\0'
    rows = '0 0 0 0\n' * 4
    equal(show(empty + bytes(4)), 'TXP 1 2 1 0 0 0 whole\n' + rows, 'P = 0')
    equal(show(empty + b'\0\0\0\1'), 'TXP 1 2 1 0 1 0 whole\n' + rows,
          'P = 0, bits declared and absent')
    equal(show(empty + b'\0\0\0\1\0'), 'refused 13 0\n', 'P = 0, a bit present')
    equal(show(b''), 'refused 7 0\n', 'no bytes')
    equal(show(b'x' * 16_384), 'refused 7 0\n', '16,384 bytes')
    equal(show(b'x' * 16_385), 'too large\n', '16,385 bytes')
    for N, wanted in ((6, 'refused 2 0\n'), (7, 'too large\n'),
                      (8, 'too large\n'), (9, 'too large\n'),
                      (10, 'too large\n'), (11, 'refused 1 0\n')):
        equal(show(b'TXP\0\1' + bytes((N, 0, 99)) + bytes(4)), wanted, 'N')
    equal(show(b'TXP\0\1\7\0\0\0\0\0'), 'refused 7 0\n', '11 bytes')
    equal(show(b'TXP\0\2\7\0\0\0\0\0\0'), 'refused 8 0\n', 'version 2')
    rng = random.Random(5)
    for n in range(200):
        N = rng.randint(2, 3)
        L, P = rng.randint(1, N - 1), rng.randint(0, 24)
        A = random_array(rng, N, P, STYLES[n % len(STYLES)])
        budget = rng.choice((NO_BUDGET, rng.randint(0, 300)))
        answer = encode_file(N, L, A, budget)
        header = read_file(answer.file)
        equal(tuple(header), (N, L, P, len(answer.bits), answer.bits), 'file')
        equal(len(answer.file) <= output_bytes(N, L, P, budget), True, 'room')


# Why the bits ended.

# Worked by hand from document 02's text: P, the body, the declared bits, and
# the word or the refusal. The sample has 37 bits in 5 bytes. The array of N = 2
# and L = 1 with a 1 in place 0 and else 0 has one plane of 8 bits: 1 and the
# sign 0, three other coefficients, three sets.
SAMPLE_BODY = SAMPLE_FILE[HEADER_BYTES:]
ENDS = (
    (3, SAMPLE_BODY, 37, WHOLE),                # plane 0 ended
    (3, SAMPLE_BODY, 38, Refused(13, 37)),      # a bit of the padding is usable
    (3, SAMPLE_BODY, 40, Refused(13, 37)),
    (3, SAMPLE_BODY, 41, Refused(13, 37)),
    (3, SAMPLE_BODY[:4], 37, CUT),              # the byte with the padding
    (3, SAMPLE_BODY[:4], 34, CUT),
    (3, SAMPLE_BODY[:4], 33, CUT),              # one more than 8 x bytes
    (3, SAMPLE_BODY[:4], 32, BUDGET),           # both fall at one bit
    (3, b'\x80\xc9\x02\x0a', 31, BUDGET),       # one fewer
    (3, SAMPLE_BODY[:3], 33, CUT),
    (3, SAMPLE_BODY[:1], 8, BUDGET),            # after a plane
    (3, SAMPLE_BODY[:1], 9, CUT),
    (3, b'\x80', 1, BUDGET),                    # before a sign
    (3, b'', 0, BUDGET),
    (3, b'', 1, CUT),
    (3, b'', NO_BUDGET, CUT),
    (1, b'\x80', 8, WHOLE),
    (1, b'\x80', 9, WHOLE),                     # a bit that is not there
    (1, b'\x80', 16, WHOLE),
    (1, b'\x80', NO_BUDGET, WHOLE),
    (1, b'\x80\0', 9, Refused(13, 8)),          # a bit that is there
    (1, b'\x80\0', NO_BUDGET, Refused(13, 8)),
    (1, b'\x80', 7, BUDGET),
    (1, b'', 8, CUT),
    (0, b'', 0, WHOLE),
    (0, b'', 1, WHOLE),
    (0, b'', NO_BUDGET, WHOLE),
    (0, b'\0', 1, Refused(13, 0)),
    (0, b'\0', NO_BUDGET, Refused(13, 0)))


def worked_ends():
    """The ends worked by hand, of a file, of its text and of a body."""
    for P, body, declared, wanted in ENDS:
        data = write_file(2, 1, P, declared, []) + body
        answer = decode_file(data)
        if isinstance(wanted, Refused):
            equal(answer, wanted, 'declared bits that are there')
            text = 'refused %d %d' % wanted
            got = decode_body(2, 1, P, body, declared, (16,) * 3)
        else:
            equal(answer[1].ending, wanted, 'the word of a file')
            text = 'TXP 1 2 1 %d %d %d %s' % (P, declared, answer[1].used,
                                              wanted)
            got = decode_body(2, 1, P, body, declared, (16,) * 3).ending
        equal(show(data).split('\n')[0], text, 'the first line')
        equal(got, wanted, 'the word of a body')
    # no more than the declared bits is asked of a body
    for declared in range(37):
        equal(decode_body(2, 1, 3, SAMPLE_BODY, declared, (16,) * 3).ending,
              BUDGET, 'a body that goes on')
    for at, declared, wanted in (
            (7, 8, None), (8, 8, BUDGET), (8, 9, CUT), (9, 9, BUDGET),
            (7, 7, BUDGET), (0, 0, BUDGET), (NO_BUDGET, NO_BUDGET, BUDGET),
            (NO_BUDGET - 1, NO_BUDGET, CUT), (9, 8, BUDGET)):
        equal(lacking(at, declared, b'\0'), wanted, 'a bit that is missing')


def worked_steps():
    """Words of positions, worked by hand: the sample's body whole, and its
    first 4 bytes with 32, 33 and 37 bits declared."""
    enough = (16,) * 3
    _, bits = encode(2, 1, SAMPLE, NO_BUDGET)
    equal(start(2, 1, 3, enough).ending, None, 'a start')
    equal(start(2, 1, 0, enough).ending, WHOLE, 'a start of P = 0')
    for body, declared, words in (
            (SAMPLE_BODY, 37, {37: WHOLE}), (SAMPLE_BODY, 40, {37: WHOLE}),
            (SAMPLE_BODY, NO_BUDGET, {37: WHOLE}),
            (SAMPLE_BODY, 36, {36: BUDGET}), (SAMPLE_BODY[:4], 37, {32: CUT}),
            (SAMPLE_BODY[:4], 33, {32: CUT}),
            (SAMPLE_BODY[:4], 32, {32: BUDGET}),
            (SAMPLE_BODY[:4], 31, {31: BUDGET}), (b'', 1, {0: CUT}),
            (b'', 0, {0: BUDGET}), (SAMPLE_BODY, 0, {0: BUDGET})):
        last, = words
        for at in range(last + 1):
            record, wanted = decode(2, 1, 3, bits[:at]).record, words.get(at)
            equal(turn(record, body, declared, at, enough)[1].ending, wanted,
                  'the word where a turn has nothing to do')
            if at:
                before = decode(2, 1, 3, bits[:at - 1]).record
                equal(forward(before, body, declared, enough).ending, wanted,
                      'the word of a step forward')
                equal(back(record, body, declared, enough).ending, None,
                      'the word of a step back')
        on = forward(record, body, declared, enough)
        equal(on, Refused(13, 37) if words[last] == WHOLE and declared > 37
              else Refused(15, 0), 'a step past the end')


def every_length(full):
    """Small streams, of any number of bytes and declared bits: `whole` exactly
    where the bits are all that an encoder writes, 13 where more are there."""
    rng = random.Random(13)
    seen = dict.fromkeys((WHOLE, BUDGET, CUT, 13), 0)
    arrays = list(SMALL) + [(N, L, random_array(rng, N, P, 'sparse'))
                            for N, L, P in ((2, 1, 0), (2, 1, 1), (2, 1, 2),
                                            (3, 1, 1), (3, 2, 2), (4, 3, 1))]
    arrays.append((2, 1, [1] + [0] * 15))
    for N, L, A in arrays:
        P, bits = encode(N, L, A, NO_BUDGET)
        longer = pack(bits) + b'\0'
        pairs = list(product(range(len(longer) + 1), list(range(
            8 * len(longer) + 2)) + [NO_BUDGET]))
        if N > 2 and not full:
            pairs = rng.sample(pairs, min(400, len(pairs)))
        for count, declared in pairs:
            body, usable = longer[:count], min(declared, 8 * count)
            got = decode_body(N, L, P, body, declared, (4 ** N,) * 3)
            if usable > len(bits):
                equal(got, Refused(13, len(bits)), 'bits beyond')
                seen[13] += 1
                continue
            word = (WHOLE if usable == len(bits) else
                    BUDGET if usable == declared else CUT)
            equal(got.ending, word, 'the word of a length')
            equal(literal.ending(N, L, P, body, declared), word,
                  'the word of the scan')
            seen[word] += 1
            if bytes_for(declared) > count:
                data = write_file(N, L, P, declared, []) + body
                equal(decode_file(data)[1], got, 'a short file')
    for word in seen:
        equal(seen[word] > 30, True, 'lengths with %s' % word)


def run(full=False):
    """All checks."""
    started = time.time()
    samples()
    ezw()
    worked_rules()
    rule_bounds()
    top_planes()
    trees()
    random_arrays(6000 if full else 1200)
    small_streams()
    large_arrays()
    worst_bodies()
    all_small(full)
    random_bodies(20000 if full else 3000)
    turns(2000 if full else 150)
    step_refusals()
    worked_transform()
    transforms()
    magnitudes()
    restored()
    transform_refusals()
    decode_refusals()
    encode_refusals()
    files()
    worked_ends()
    worked_steps()
    every_length(full)
    print('%d checks passed in %.0f seconds' % (checks, time.time() - started))
