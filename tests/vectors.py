"""Test vectors from second.py, the same for the same seed.

    python3 tests/second.py vectors DIR SEED

DIR/stdin holds the cases, DIR/stdout what the program `second` prints for
them, and DIR/txp some of the files as NUMBER-KIND.txp with what txpshow prints
for them as NUMBER-KIND.out. The gate keeps the first two as
crates/second/stdin and crates/second/stdout. DIR/large has cases too large for
that program, or too many to store, for the linked library alone. VECTORS.md has
the format of both.

The remarks 12a to 12d are the contradictions: all of plane P-1 is 0; four
children of a split set without a GRAND are 0; a GRAND is 0 whose DESC was split
and whose children are 0; the four sets of a split GRAND are 0.
"""

import os
import random
import struct
from collections import Counter, namedtuple
from itertools import accumulate, groupby, product

import second
from arrays import (STYLES, at_once, in_runs, placed, random_array, random_bits,
                    scattered, stretched, tiled)
from second import Decoder, Record, Refused, encode, write_file
from selftest import (CHANGED_LINEAR, EZW, NO_BUDGET, SAMPLE, SMALL, SQUARE,
                      asked, checkered, clash_kind, own_map)

# A case: the letter of its call, the numbers that go in, the answer, the
# lengths lent of the TABLES, the arrays that go in, and what the first entries
# of each table hold after the call.
Case = namedtuple('Case', 'letter numbers answer lent ints file '
                  'desc grand marks bytes values')
TABLES = 'desc', 'grand', 'marks', 'bytes', 'values'

# The numbers of an answer: the result of the call, then the fields of
# `struct txp_answer` in the order of include/txp.h.
ANSWER = ('result', 'refusal', 'place', 'n', 'l', 'planes', 'declared', 'bits',
          'bytes', 'finished', 'error', 'parts', 'splits', 'found', 'negative',
          'value', 'ending')

# Why the bits ended, each word at its number in `enum txp_ending`; None is that
# bits go on.
ENDINGS = None, second.WHOLE, second.BUDGET, second.CUT

# The rules of the calls that decode, by the letters of their cases: of those on
# a file, and of those on a body; and the letters of each rule.
FILES = {'D': second.lower, 'd': second.midpoint}
BODIES = {'C': second.lower, 'c': second.midpoint}
BY_DEFAULT, BY_MIDPOINT = 'DC', 'dc'

# The lent tables that these calls and the steps change, in the order of their
# parameters.
DECODED = 'values', 'bytes', 'marks'

# Entries past a table's lent end that are compared too.
PAST = 64

# The largest N whose tables the program `second` has, and the longest line that
# it takes.
STORED_N = 9
STORED_LINE = 65_600

# The largest N whose work table that program has: the table is that of DESC.
WORK_N = 8

# Sizes between those of which there are cases of every L, up to N = 6, and the
# largest N: their lines are short enough.
BETWEEN = (7, 5), (7, 6), (8, 6), (8, 7)

# A case with a longer list, or of the transform, has items that repeat what
# stands before, for so many equal runs in a row or more.
PLAIN = 65_536
ALIKE = 8


def before(i):
    """What entry i of a lent table holds before a call; a byte is the low one
    of its four."""
    return 0xa00000a0 + i % 65536 * 256 + i % 93


def answer(refused=None, **numbers):
    """An answer: a refusal, or the numbers named. All others are 0."""
    if refused:
        numbers = {'result': refused.number, 'refusal': refused.number,
                   'place': refused.place}
    return [numbers.get(name, 0) for name in ANSWER]


def case(letter, numbers, answered, ints=(), file=b'', **tables):
    """A case; a table is named with its lent length and its list."""
    lists = [tables.get(name, (0, ())) for name in TABLES]
    return Case(letter, numbers, answered, [lent for lent, _ in lists],
                ints, file, *(own for _, own in lists))


def listed(numbers, again):
    """The fields of a list."""
    runs = [(number, len(list(run))) for number, run in groupby(numbers)]
    items = repeated(runs) if again else [plain(run) for run in runs]
    return [str(len(numbers))] + items


def plain(run):
    """The item of equal numbers in a row."""
    number, count = run
    return str(number) if count == 1 else '%d*%d' % run


def repeated(runs):
    """The items of runs, among them ~BACK*COUNT where the next runs stand
    before too."""
    starts = [0] + list(accumulate(count for _, count in runs))
    seen, items, at = {}, [], 0
    while at < len(runs):
        first, alike = seen.setdefault(tuple(runs[at:at + ALIKE]), at), 0
        while (first < at and at + alike < len(runs)
               and runs[first + alike] == runs[at + alike]):
            alike += 1
        if alike >= ALIKE:
            items.append('~%d*%d' % (starts[at] - starts[first],
                                     starts[at + alike] - starts[at]))
            at += alike
        else:
            items.append(plain(runs[at]))
            at += 1
    return items


def line(one, again):
    """The line of a case. Empty lists at its end are left out."""
    again = again and (one.letter in CHANGES
                       or max(map(len, one[1:])) > PLAIN)
    lists = [listed(items, again) for items in one[1:]]
    while lists[-1] == ['0']:
        lists.pop()
    return ' '.join([one.letter] + sum(lists, [])) + '\n'


def encode_case(N, L, budget, A, lent=None):
    """A call of txp_encode."""
    if lent is None:
        P = second.plane_count(A)
        lent = (4 ** N // 4, 4 ** N // 16, 4 ** N,
                second.output_bytes(N, L, P, budget))
    got = second.encode_file(N, L, A, budget, lent)
    if isinstance(got, Refused):
        answered, tables = answer(got), [()] * 4
    else:
        answered = answer(planes=got.P, bits=len(got.bits),
                          bytes=len(got.file))
        tables = got.desc, got.grand, got.marks, got.file
    return case('E', (N, L, budget), answered, A,
                **dict(zip(TABLES, zip(lent, tables))))


def encode_body_case(one, offset):
    """The call of txp_encode_body that writes the same body at another place,
    and no header."""
    N, L, budget = one.numbers
    moved = offset - second.HEADER_BYTES
    lent = one.lent[:3] + [one.lent[3] + moved] + one.lent[4:]
    numbers = list(one.answer)
    numbers[ANSWER.index('bytes')] = 0
    out = [before(i) & 255 for i in range(offset)]
    out += one.bytes[second.HEADER_BYTES:]
    return one._replace(letter='B', numbers=(N, L, offset, budget),
                        answer=numbers, lent=lent,
                        bytes=out if one.bytes else ())


def lent_for(data):
    """The length of the tables lent for a file, if the case names none: I, and
    16 where the file has no N that says so."""
    if len(data) >= second.HEADER_BYTES and 2 <= data[5] <= second.N_LIMIT:
        return 4 ** data[5]
    return 16


def decode_case(data, lent=None, letter='d'):
    """A call of txp_decode_midpoint, or by the letter D of txp_decode."""
    if lent is None:
        lent = (lent_for(data),) * 3
    got = second.decode_file(data, lent, FILES[letter])
    if isinstance(got, Refused):
        tables = cleared(got, data[5:6])
        answered = answer(got)
    else:
        (N, L, P, declared, _), decoded = got
        tables = tables_of(decoded)
        answered = answer(n=N, l=L, planes=P, declared=declared,
                          **decoded_numbers(decoded))
    return case(letter, (), answered, (), data,
                **dict(zip(DECODED, zip(lent, tables))))


def tables_of(decoded):
    """What is decoded of each of the DECODED."""
    return decoded.values, decoded.precisions, decoded.marks


def lent_of(one):
    """The lengths that a case lends of the DECODED."""
    return [one.lent[TABLES.index(name)] for name in DECODED]


def decoded_numbers(decoded):
    """The numbers of what was decoded that file and body have."""
    return {'bits': decoded.used, 'finished': decoded.finished,
            'error': decoded.error, 'ending': ENDINGS.index(decoded.ending)}


def cleared(refused, side):
    """What a refusal leaves in values, precisions and marks: I zeros after 12
    and 13."""
    return ([0] * 4 ** side[0] if refused.number in (12, 13) else (),) * 3


def decode_body_case(N, L, P, body, declared, lent, letter='c'):
    """A call of txp_decode_body_midpoint, or by the letter C of
    txp_decode_body."""
    got = second.decode_body(N, L, P, body, declared, lent, BODIES[letter])
    if isinstance(got, Refused):
        tables, answered = cleared(got, (N,)), answer(got)
    else:
        tables = tables_of(got)
        answered = answer(**decoded_numbers(got))
    return case(letter, (N, L, P, declared), answered, (), body,
                **dict(zip(DECODED, zip(lent, tables))))


def body_case_of(one):
    """The call by the midpoint on the body of a case's file."""
    N, L, P = one.file[5:8]
    declared = int.from_bytes(one.file[8:12], 'big')
    return decode_body_case(N, L, P, one.file[second.HEADER_BYTES:], declared,
                            lent_of(one))


def default_case(one):
    """The call by the default rule on what a case by the midpoint is lent."""
    if one.letter in FILES:
        return decode_case(one.file, lent_of(one), 'D')
    N, L, P, declared = one.numbers
    return decode_body_case(N, L, P, one.file, declared, lent_of(one), 'C')


def summaries_case(one):
    """The call of txp_summaries on an encode case's array."""
    return one._replace(letter='S', numbers=one.numbers[:2], answer=answer(),
                        lent=one.lent[:2] + [0, 0, 0], marks=(), bytes=())


def figures_case(one, plane):
    """The call of txp_figures on an encode case's array."""
    N, L, _ = one.numbers
    A, size = one.ints, [abs(a) for a in one.ints]
    bits = second.plane_bits(second.shape_of(N, L), A, size, one.desc,
                             one.grand, plane)
    parts, splits = second.plane_figures(N, L, A, plane)
    found = sum(1 << plane <= m < 2 << plane for m in size)
    return summaries_case(one)._replace(
        letter='G', numbers=(N, L, plane),
        answer=answer(bits=len(bits), parts=parts, splits=splits,
                      found=found))


def shapes(largest):
    """All N up to the largest, with every L."""
    return [(N, L) for N in range(2, largest + 1) for L in range(1, N)]


def styles_of(N):
    """Styles whose arrays are short to write at this N."""
    return STYLES if N <= 3 else STYLES[:-1] if N == 4 else (
        'sparse', 'single', 'tree')


def one_array(rng, N, P):
    """A random array that is short to write."""
    return random_array(rng, N, P, rng.choice(styles_of(N)))


def whole_file(rng, N, L, P):
    """A file with a whole stream, and the stream."""
    _, bits = encode(N, L, one_array(rng, N, P), NO_BUDGET)
    return write_file(N, L, P, len(bits), bits), bits


def encode_cases(seed):
    """(kind, N, L, budget, coefficients, lent) of each encode case."""
    for budget in list(range(39)) + [NO_BUDGET]:
        yield 'sample', 2, 1, budget, SAMPLE, None
    rng = random.Random('%d encode' % seed)
    ezw = second.to_linear(3, EZW)
    for L in (1, 2):
        length = len(encode(3, L, ezw, NO_BUDGET)[1])
        for budget in list(range(0, length, 29)) + [length - 1, length]:
            yield 'ezw', 3, L, budget, ezw, None
    for N, L in shapes(6):
        for P in range(25):
            for n in range({2: 6, 3: 5, 4: 2}.get(N, 1)):
                A = one_array(rng, N, P)
                length = len(encode(N, L, A, NO_BUDGET)[1])
                if n + P % 2 == 0:
                    budget = rng.choice((length, length + 1, NO_BUDGET))
                    yield 'whole', N, L, budget, A, None
                else:
                    yield 'cut', N, L, rng.randint(0, length), A, None
    for N, L in shapes(3):
        for P in range(25):
            A = random_array(rng, N, P, 'full')
            yield 'full', N, L, NO_BUDGET, A, None
    for N, L in ((5, 3), (6, 4)):
        A = random_array(rng, N, 12, 'decay')
        yield 'dense', N, L, NO_BUDGET, A, None
    for N, L in BETWEEN:
        A = random_array(rng, N, 3, 'single')
        yield 'large', N, L, NO_BUDGET, A, None
    yield from encode_refusals(rng)


def encode_refusals(rng):
    """Encode cases that are refused, and those that just are not."""
    enough = (4 ** 4, 4 ** 4, 4 ** 4, 4 ** 6)
    for N in (0, 1, 11, 12, 255, 256, 2 ** 32 - 1):
        yield 'refused1', N, 1, 100, [0] * 16, enough
    for N, L in ((2, 0), (2, 2), (3, 3), (3, 255), (3, 256), (3, 2 ** 32 - 1)):
        yield 'refused2', N, L, 100, [0] * 4 ** N, enough
    for count in (0, 1, 15, 17, 64):
        yield 'refused3', 2, 1, 100, [1] * count, enough
    for over in (16_777_216, -16_777_216, 2 ** 31 - 1, -2 ** 31):
        for place in (0, 7, 15):
            A = [0] * 16
            A[place:] = [over] * (16 - place)
            yield 'refused4', 2, 1, 100, A, enough
    for N, L in shapes(4):
        I = 4 ** N
        A = one_array(rng, N, rng.randint(0, 24))
        P = second.plane_count(A)
        for budget in (0, 1, 8, 9, rng.randint(0, 5000), NO_BUDGET):
            room = second.output_bytes(N, L, P, budget)
            yield 'room', N, L, budget, A, (I // 4, I // 16, I, room)
            yield 'refused6', N, L, budget, A, (I // 4, I // 16, I, room - 1)
        yield 'refused6', N, L, 8, A, (I // 4, I // 16, I, 0)
        yield 'refused5', N, L, 8, A, (I // 4 - 1, I // 16, I, 0)
        yield 'refused5', N, L, 8, A, (I // 4, I // 16 - 1, I, 100)
        yield 'refused5', N, L, 8, A, (I // 4, I // 16, I - 1, 100)
        yield 'room', N, L, 8, A, (I // 4 + 3, I // 16 + 2, I + 1, 100)


def decode_cases(seed):
    """(kind, file, lent) of each decode case."""
    _, bits = encode(2, 1, SAMPLE, NO_BUDGET)
    for count in range(38):
        yield 'sample', write_file(2, 1, 3, count, bits[:count]), None
    for count in range(0, 37, 8):
        yield 'sample', write_file(2, 1, 3, 37, bits[:count]), None
    ezw = second.to_linear(3, EZW)
    for L in (1, 2):
        P, bits = encode(3, L, ezw, NO_BUDGET)
        for count in list(range(0, len(bits), 7)) + [len(bits)]:
            yield 'ezw', write_file(3, L, P, count, bits[:count]), None
    rng = random.Random('%d decode' % seed)
    for N, L in shapes(6):
        yield from absent_body(rng, N, L)
        for P in range(25):
            kinds = {2: 5 * LENGTHS, 3: 4 * LENGTHS, 4: LENGTHS}.get(
                N, LENGTHS[P % 3:P % 3 + 1])
            for length in kinds:
                yield length(rng, N, L, P)
    for N, L in ((7, 5), (8, 7)):
        A = random_array(rng, N, 3, 'single')
        P, bits = encode(N, L, A, NO_BUDGET)
        yield 'large', write_file(N, L, P, len(bits), bits), None
    for N, L in shapes(4):
        for _ in range(12):
            yield left_over(rng, N, L)
            yield padding(rng, N, L)
            yield surplus(rng, N, L)
        yield from contradictions(rng, N, L, 20)
        yield from lent_lengths(rng, N, L)
    yield from damaged_headers(rng)


def every_bit_cases():
    """(kind, case) of the cuts of small streams after every bit. Those of the
    sample are among the decode cases."""
    for N, L, A in SMALL[1:]:
        P, bits = encode(N, L, A, NO_BUDGET)
        for count in range(len(bits) + 1):
            data = write_file(N, L, P, count, bits[:count])
            yield 'every bit', decode_case(data)


# What is told apart among the cuts of the small streams.
CUT_KINDS = ('inside the pixel pass', 'inside the set pass',
             'inside the refinement pass', 'before the last bit of a set pass',
             'after the last bit of a set pass', 'after a DESC of 0',
             'after a GRAND of 0', 'after a GRAND of 0 with a child to refine',
             'before a sign', 'with a precision by a set alone')


def cut_kinds(answers, count):
    """The kinds of a stream's cut after so many bits, by what the bits
    answer."""
    last, ahead, later = ([None] + answers + [None] * 2)[count:count + 3]

    def together(one, other):
        """Are these bits of one pass of one plane?"""
        return one and other and (one.b, one.stage) == (other.b, other.stage)

    if together(last, ahead):
        yield 'inside the %s pass' % last.stage
    for when, one, other in (('before', ahead, later),
                             ('after', last, ahead)):
        if one and one.stage == 'set' and not together(one, other):
            yield when + ' the last bit of a set pass'
    if last and last.what in ('desc', 'grand') and last.bit == 0:
        yield 'after a %s of 0' % last.what.upper()
        if last.what == 'grand' and any(
                one.what == 'sign' and one.b > last.b
                and one.place // 4 == last.place // 16
                for one in answers[:count]):
            yield 'after a GRAND of 0 with a child to refine'
    if ahead and ahead.what == 'sign':
        yield 'before a sign'


def cut_counts(cases, letter):
    """The number of cuts of each kind of the small streams. Every cut has to
    be among the cases of this letter, and every kind among the cuts of each
    stream, but for those of a GRAND where there is one level."""
    stored = {one.file: one for _, one in cases
              if one.letter == letter and not one.answer[0]}
    counts, marks = Counter(), set()
    for N, L, A in SMALL:
        P, bits = encode(N, L, A, NO_BUDGET)
        answers, here = asked(N, L, P, bits), Counter()
        for count in range(len(bits) + 1):
            one = stored.get(write_file(N, L, P, count, bits[:count]))
            if one is None:
                raise SystemExit('%s: a cut of a small stream is not stored'
                                 % letter)
            here.update(cut_kinds(answers, count))
            last = P - one.answer[ANSWER.index('finished')]
            here['with a precision by a set alone'] += one.bytes != own_map(
                second.shape_of(N, L), answers[:count], last)
            marks.update(one.marks)
        for kind in CUT_KINDS:
            if not here[kind] and (L > 1 or 'GRAND' not in kind):
                raise SystemExit('N %d L %d: no cut %s' % (N, L, kind))
        counts += here
    if not marks >= set(range(second.MN(3) + 1)):
        raise SystemExit('a mark is missing in the small streams')
    return counts


def print_cuts(cases):
    """How many cuts of each kind there are, of each call on files."""
    counts = {letter: cut_counts(cases, letter) for letter in FILES}
    for kind in CUT_KINDS:
        print('cuts %s: %s' % (kind, numbered(
            (letter, counts[letter][kind]) for letter in FILES)))


def numbered(pairs):
    """Names with their numbers, but for those of 0."""
    return ', '.join('%s %d' % pair for pair in pairs if pair[1])


def absent_body(rng, N, L):
    """No body bytes, whatever is declared: accepted."""
    for P in (0, rng.randint(1, 24)):
        for declared in (0, rng.choice((1, 8, 9)), NO_BUDGET):
            yield 'absent', write_file(N, L, P, declared, []), None


def whole(rng, N, L, P):
    """The whole stream."""
    return 'whole', whole_file(rng, N, L, P)[0], None


def budget_cut(rng, N, L, P):
    """Fewer bits than the stream, all declared and present."""
    _, bits = whole_file(rng, N, L, P)
    count = rng.randint(0, len(bits))
    return 'cut', write_file(N, L, P, count, bits[:count]), None


def short(rng, N, L, P):
    """Fewer body bytes than declared."""
    data, bits = whole_file(rng, N, L, P)
    missing = rng.randint(1, max(1, len(bits) // 8))
    if rng.random() < 0.3:
        # more bits declared than any array has
        declared = rng.choice((NO_BUDGET, NO_BUDGET - 7, 2 ** 31,
                               second.worst_body(N, L, 24) + 1))
        data = data[:8] + declared.to_bytes(4, 'big') + data[12:]
    return 'short', data[:max(12, len(data) - missing)], None


LENGTHS = (whole, budget_cut, short)


def left_over(rng, N, L):
    """Bits left after plane 0: refusal 13."""
    P = rng.randint(0, 24)
    _, bits = whole_file(rng, N, L, P)
    more = random_bits(rng, rng.randint(1, 20), rng.choice((0, 0.5, 1)))
    if rng.random() < 0.3:
        # a short file, in which the padding is usable
        declared = len(bits + more) + rng.randint(8, 99)
        if second.bytes_for(len(bits)) * 8 > len(bits):
            more = rng.choice((more, []))
    else:
        declared = len(bits + more)
    return '13', write_file(N, L, P, declared, bits + more), None


def padding(rng, N, L):
    """Padding that is not 0: refusal 11."""
    while True:
        data, bits = whole_file(rng, N, L, rng.randint(1, 24))
        count = rng.randint(1, len(bits))
        if count % 8:
            break
    body = bytearray(second.pack(bits[:count]))
    body[-1] |= rng.randrange(1, 1 << 8 - count % 8)
    return 'padding', data[:8] + count.to_bytes(4, 'big') + bytes(body), None


def surplus(rng, N, L):
    """More body bytes than declared: refusal 10."""
    data, _ = whole_file(rng, N, L, rng.randint(0, 24))
    more = rng.choice((b'\0', b'\1', b'\0\0', b'TXP'))
    return 'surplus', data + more, None


def contradictions(rng, N, L, count):
    """So many bodies with a contradiction of each kind: a stream that goes on
    at random from some bit."""
    missing = {kind: count for kind in ('abcd' if L > 1 else 'ab')}
    while any(missing.values()):
        P = rng.randint(1, 24)
        _, stream = whole_file(rng, N, L, P)
        most = len(stream)
        for keep in (0, rng.randint(0, most), rng.randint(0, most)):
            ones = rng.choice((0, 0.1, 0.3, 0.5))
            bits = stream[:keep] + random_bits(rng, 60 + 4 ** N, ones)
            decoder = Decoder(N, L, P, bits)
            refused = decoder.run()
            if not refused or refused.number != 12:
                continue
            kind = clash_kind(decoder)
            if missing[kind]:
                missing[kind] -= 1
                bits = bits[:refused.place + 1 + rng.choice((0, 0, 1, 9))]
                declared = len(bits) + rng.choice((0, 0, 50))
                yield '12' + kind, write_file(N, L, P, declared, bits), None


def lent_lengths(rng, N, L):
    """Tables that are too short, refused with 5 before 12 and 13, and tables
    longer than need be."""
    I = 4 ** N
    data, _ = whole_file(rng, N, L, rng.randint(1, 24))
    for lent in ((I - 1, I, I), (I, I - 1, I), (I, I, I - 1), (0, 0, 0)):
        yield 'refused5', data, lent
    yield 'refused5', write_file(N, L, 1, 2 * I, [0] * (2 * I)), (I, I, 0)
    yield 'long', data, (I + 1, I + 5, 2 * I)


def damaged_headers(rng):
    """Refusals 7, 8, 1, 2 and 9, alone and together."""
    data, _ = whole_file(rng, 2, 1, 3)
    for count in range(12):
        yield 'header', data[:count], None
    yield 'header', data[:12], None
    for place in range(12):
        for byte in (0, 1, 2, 3, 9, 24, 25, 32, 255):
            damaged = data[:place] + bytes((byte,)) + data[place + 1:]
            yield 'header', damaged, None
    for _ in range(200):
        N = rng.randint(2, 4)
        damaged = bytearray(whole_file(rng, N, rng.randint(1, N - 1),
                                       rng.randint(0, 24))[0])
        for _ in range(rng.randint(1, 3)):
            place = rng.randrange(12)
            damaged[place] = rng.choice((0, 1, damaged[place] + 1 & 255,
                                         damaged[place] - 1 & 255,
                                         rng.randrange(256)))
        if damaged[5] not in range(7, second.N_LIMIT + 1):
            yield 'header', bytes(damaged), None


def show_cases(seed):
    """(kind, file) of files that only txpshow tells apart."""
    rng = random.Random('%d show' % seed)
    yield from labelled_files()
    yield from limit_files(rng)
    # over 65,535: values, declared and used bits
    for N, L in ((2, 1), (3, 2), (5, 3)):
        P, bits = encode(N, L, random_array(rng, N, 24, 'dense'), NO_BUDGET)
        for declared in (len(bits), 65_535, 65_536, 99_999, NO_BUDGET):
            if declared >= len(bits):
                yield 'numbers', write_file(N, L, P, declared, bits)
    # raster and linear order differ; planes that are not finished; bits that
    # are declared and not there
    for N, L in shapes(6):
        A = [i + 1 if i % 3 else -i - 1 for i in range(4 ** N)]
        P, bits = encode(N, L, A, NO_BUDGET)
        yield 'order', write_file(N, L, P, len(bits), bits)
        for _ in range(4):
            count = rng.randrange(len(bits))
            yield 'unfinished', write_file(N, L, P, count, bits[:count])
            count = count // 8 * 8
            declared = rng.randint(count + 8, 2 * len(bits))
            yield 'declared', write_file(N, L, P, declared, bits[:count])


def labelled_files():
    """Letters, version and N, each right or not, in files of about the
    header's length."""
    letters = (b'TXP', b'UXP', b'TYP', b'TXQ')
    for N in (5, 6, 7, 8, 9, 10, 11, 12, 255):
        for letter in letters:
            for version in (1, 0, 2, 256, 257):
                data = write_file(N, 1, 0, 8, [0] * 8, version, letter)
                for count in (11, 12, 13):
                    yield 'label', data[:count]
        for L, P, bits in ((1, 0, []), (0, 0, []), (N, 0, []), (1, 25, []),
                           (1, 0, [1]), (0, 99, [1])):
            yield 'label', write_file(N, L, P, 0, bits)


def limit_files(rng):
    """About as many bytes as txpshow takes."""
    P, bits = encode(6, 3, random_array(rng, 6, 24, 'full'), NO_BUDGET)
    whole = write_file(6, 3, P, len(bits), bits)
    yield 'size', whole
    for size in (second.SHOW_BYTES, second.SHOW_BYTES + 1):
        yield 'size', b'x' * size
        yield 'size', whole + bytes(size - len(whole))
        more = 8 * (size - second.HEADER_BYTES) - len(bits)
        for declared in (len(bits) + more, len(bits) + more + 1):
            yield 'size', write_file(6, 3, P, declared, bits + [0] * more)
        for N in (6, 7, 10, 11):
            yield 'size', write_file(N, 1, 0, 0, [0] * (len(bits) + more))
            yield 'size', write_file(N, 1, 0, 0, [0] * (len(bits) + more), 2)


def coder_cases(seed, decodes):
    """(kind, case) of the calls on files and bodies, on summaries and on
    figures; decodes are the cases of decode_cases."""
    rng = random.Random('%d body' % seed)
    encoded = [(kind, encode_case(*rest))
               for kind, *rest in encode_cases(seed)]
    decoded = [(kind, decode_case(*rest)) for kind, *rest in decodes]
    yield from encoded
    yield from decoded
    for kind, one in encoded[::9]:
        offset = rng.choice((0, 0, 1, 12, 13, rng.randint(0, 99)))
        if one.lent[3] + offset >= second.HEADER_BYTES:
            yield kind, encode_body_case(one, offset)
    for kind, one in decoded[::9]:
        if not 0 < one.answer[0] < 12:
            yield kind, body_case_of(one)
    yield from body_limits(rng)
    for kind, one in encoded[4::9]:
        if not one.answer[0]:
            yield kind, summaries_case(one)
            top = rng.choice((one.answer[ANSWER.index('planes')], 23))
            yield kind, figures_case(one, rng.randint(0, top))
    yield from table_refusals()


def body_limits(rng):
    """Declared bits that end before the body does, and refusals of the calls
    on a body."""
    for N, L in shapes(3):
        I = 4 ** N
        data, bits = whole_file(rng, N, L, 5)
        body = data[second.HEADER_BYTES:]
        for declared in list(range(0, len(bits), 5)) + [
                len(bits) - 1, len(bits), len(bits) + 1, 8 * len(body),
                NO_BUDGET]:
            yield 'declared', decode_body_case(N, L, 5, body, declared,
                                               (I,) * 3)
    for N, L, P, lent in ((1, 1, 25, 0), (11, 0, 25, 0), (9, 0, 25, 0),
                          (10, 10, 25, 0), (10, 9, 25, 0), (10, 9, 24, 4 ** 9),
                          (2, 0, 25, 0), (2, 2, 25, 0), (2, 1, 25, 0),
                          (2, 1, 24, 15), (3, 2, 24, 63),
                          (2, 1, 2 ** 32 - 1, 16)):
        yield 'refused', decode_body_case(N, L, P, b'\xff', 8, (lent,) * 3)
    for offset, room in ((0, 5), (7, 11), (12, 16), (12, 3), (99, 12),
                         (2 ** 32 - 1, 20)):
        got = second.encode_file(2, 1, SAMPLE, 37,
                                 (4, 1, 16, room - offset + 12))
        if isinstance(got, Refused):
            yield 'refused', case('B', (2, 1, offset, 37), answer(got), SAMPLE,
                                  desc=(4, ()), grand=(1, ()),
                                  marks=(16, ()), bytes=(room, ()))


def table_refusals():
    """Refusals of summaries and figures: "1 to 6 in that order", and 9 for a
    plane that is none."""
    over = [0] * 5 + [16_777_216] * 11
    for N, L, A, desc, grand, plane, refused in (
            (1, 0, over, 0, 0, 24, Refused(1, 0)),
            (11, 1, over, 0, 0, 24, Refused(1, 0)),
            (10, 10, over, 0, 0, 24, Refused(2, 0)),
            (10, 9, over, 0, 0, 24, Refused(3, 0)),
            (2, 2, over[1:], 0, 0, 24, Refused(2, 0)),
            (2, 1, over[1:], 0, 0, 24, Refused(3, 0)),
            (2, 1, over, 0, 0, 24, Refused(4, 5)),
            (2, 1, SAMPLE, 3, 1, 24, Refused(5, 0)),
            (2, 1, SAMPLE, 4, 0, 24, Refused(5, 0)),
            (2, 1, SAMPLE, 4, 1, 24, Refused(9, 0)),
            (2, 1, SAMPLE, 4, 1, 2 ** 32 - 1, Refused(9, 0))):
        lent = {'desc': (desc, ()), 'grand': (grand, ())}
        if refused.number != 9:
            yield 'refused', case('S', (N, L), answer(refused), A, **lent)
        yield 'refused', case('G', (N, L, plane), answer(refused), A, **lent)


def worst_cases():
    """(kind, case) of each worst body."""
    for N, L in shapes(second.N_LIMIT):
        for P in range(25):
            bits = second.worst_body(N, L, P)
            yield 'taken', case('W', (N, L, P), answer(bits=bits))
    # "1 to 6 in that order", and 9 for P as in decoding: 1, 2, 9
    for N, L, P in ((0, 1, 1), (1, 0, 25), (11, 1, 3), (2 ** 32 - 1, 1, 1),
                    (2, 0, 25), (2, 2, 3), (8, 8, 99), (10, 10, 99),
                    (3, 2 ** 32 - 1, 0), (2, 1, 25), (8, 7, 25), (10, 9, 25),
                    (5, 2, 2 ** 32 - 1)):
        refused = second.check_sizes(N, L) or Refused(9, 0)
        yield 'refused', case('W', (N, L, P), answer(refused))


def place_cases(seed):
    """(kind, case) of each single place: I asks for the linear place of a
    raster place, R for the raster place of a linear one."""
    rng = random.Random('%d place' % seed)
    for N in range(2, second.N_LIMIT + 1):
        I = 4 ** N
        raster = second.to_raster(N, range(I))
        linear = second.to_linear(N, range(I))
        # raster[p] is the linear place of p, linear[q] the raster place of q
        chosen = range(I) if N == 2 else sorted(
            {0, 1, 2 ** N - 1, 2 ** N, I // 2, I - 2 ** N, I - 1}
            | {rng.randrange(I) for _ in range(20)})
        for letter, places in (('I', raster), ('R', linear)):
            for at in chosen:
                yield 'N %d' % N, case(letter, (N, at),
                                       answer(value=places[at]))
            for at in (I, I + 1, 2 ** 31, 2 ** 32 - 1):
                yield 'refused3', case(letter, (N, at), answer(Refused(3, 0)))
    for N in (0, 1, 11, 255, 2 ** 32 - 1):
        for at in (0, 2 ** 32 - 1):
            for letter in 'IR':
                yield 'refused1', case(letter, (N, at), answer(Refused(1, 0)))


ORDERS = ('O', second.to_linear), ('Q', second.to_raster)


def order_cases(seed):
    """(kind, case) of each whole array in the other order: O to linear order,
    Q to raster order."""
    rng = random.Random('%d order' % seed)
    for N in range(2, 9):
        I = 4 ** N
        arrays = [list(range(I))] if N <= 6 else []
        arrays += [random_array(rng, N, rng.randint(1, 24), 'sparse')
                   if N < 7 else random_array(rng, N, 24, 'single')
                   for _ in range(3)]
        for A in arrays:
            for letter, order in ORDERS:
                lent = I + rng.choice((0, 0, 1, 7)) if N < 8 else I
                yield 'N %d' % N, case(letter, (N,), answer(), A,
                                       values=(lent, order(N, A)))
    limits = [-2 ** 31, 2 ** 31 - 1, 16_777_216, 0] * 4
    for letter, order in ORDERS:
        yield 'limits', case(letter, (2,), answer(), limits,
                             values=(16, order(2, limits)))
        for N, count, lent, number in (
                (1, 4, 4, 1), (11, 16, 16, 1), (2 ** 32 - 1, 16, 0, 1),
                (2, 15, 15, 3), (2, 17, 17, 3), (3, 16, 0, 3), (2, 0, 16, 3),
                (9, 16, 16, 3), (10, 16, 16, 3), (2, 16, 15, 5),
                (3, 64, 63, 5), (4, 256, 0, 5)):
            yield 'refused', case(letter, (N,), answer(Refused(number, 0)),
                                  range(count), values=(lent, ()))


def number_cases(seed):
    """(kind, case) of the calls on one number, and on the planes of any
    array."""
    rng = random.Random('%d float' % seed)
    limit = second.COEFFICIENT_LIMIT
    sizes = {1 << k for k in range(24)} | {(1 << k) - 1 for k in range(25)}
    sizes |= {limit - 1, limit - 2} | {rng.randint(0, limit)
                                       for _ in range(50)}
    sizes |= {limit + 1, limit + 2, 2 ** 25, 2 ** 31 - 1, 2 ** 31}
    for size in sorted(sizes):
        for x in sorted({size, -size} - {2 ** 31}):
            yield from one_number(x, size <= limit)
        for negative in (0, 1, 2, 2 ** 32 - 1):
            refused = Refused(4, 0) if size > limit else None
            joined = () if refused else [-size if negative else size]
            yield 'taken', case('J', (negative, size), answer(refused),
                                values=(1, joined))
    for A in planes_arrays(rng):
        P = second.plane_count(A) if A else 0
        yield 'any', case('P', (), answer(planes=P), A)


def planes_arrays(rng):
    """Arrays of any length for their planes: for each number of planes the
    least and the largest number that has as many, twice, and among smaller
    ones at some place of arrays of many lengths."""
    yield from ([], [0], [1], [-1, 0], [2 ** 31 - 1], [-2 ** 31, 5],
                [7, -8, 3], SAMPLE, [0] * 37)
    for P in range(1, 33):
        low = 2 ** (P - 1)
        for top in sorted({low, 2 ** P - 1} if P < 32 else {low}):
            signs = (1, -1) if P < 32 else (-1,)
            for sign in signs:
                yield [sign * top] * 2
                yield [sign * top, rng.choice(signs) * top, top - low]
            for count in (1, 3, 4, 7, 8, 9, 16, 17, 31):
                A = [rng.choice((1, -1)) * rng.randrange(low)
                     for _ in range(count)]
                A[rng.randrange(count)] = rng.choice(signs) * top
                yield A


def one_number(x, taken):
    """Sign, magnitude and both, and the float, of one number."""
    yield 'any', case('N', (), answer(value=int(x < 0)), [x])
    yield 'any', case('M', (), answer(value=abs(x)), [x])
    # the float is at first a half
    pattern, = struct.unpack('>I', struct.pack('>f', x if taken else 0.5))
    refused = None if taken else Refused(4, 0)
    kind = 'taken' if taken else 'refused4'
    yield kind, case('T', (), answer(refused, negative=int(x < 0),
                                     value=abs(x)), [x])
    yield kind, case('F', (), answer(refused), [x], desc=(1, [pattern]))


def small_cases():
    """(kind, case) of sizes and of bits."""
    for N in list(range(12)) + [255, 256, 2 ** 32 - 1]:
        side = 2 <= N <= second.N_LIMIT
        yield 'any', case('K', (N,), answer(value=int(side)))
        yield 'any', case('A', (N,), answer(value=4 ** N if side else 0))
        for L in list(range(11)) + [256, 2 ** 32 - 1]:
            levels = 1 <= L < N
            both = side and levels
            yield 'any', case('L', (N, L), answer(value=int(both)))
            yield 'any', case('Z', (N, L),
                              answer(value=4 ** (N - L) if both else 0))
    yield from header_cases()
    for x in (0, 1, 0x9e3779b9, 2 ** 32 - 1):
        for b in list(range(34)) + [64, 256, 2 ** 32 - 1]:
            yield 'any', case('X', (x, b), answer(value=x >> b & 1))
    body = bytes((0xa5, 0x3c, 0xff, 0x00, 0x81))
    for at in list(range(43)) + [NO_BUDGET - 1, NO_BUDGET]:
        for declared in (0, 7, 8, 23, 39, 40, 41, 42, NO_BUDGET - 1, NO_BUDGET):
            yield 'any', read_bit_case(at, declared, body)
    for at, declared, end in product((0, 1, 7, 8, 9, NO_BUDGET),
                                     (0, 1, 8, 9, NO_BUDGET), (0, 1)):
        yield 'any', read_bit_case(at, declared, body[:end])
    for at in list(range(26)) + [2 ** 32 - 1]:
        for x in (0, 1, 2, 2 ** 32 - 1):
            after = [before(i) & 255 for i in range(3)]
            if at < 24:
                keep = after[at // 8] >> 8 - at % 8 << 8 - at % 8
                after[at // 8] = keep | (x > 0) << 7 - at % 8
            yield 'any', case('U', (at, x), answer(), bytes=(3, after))


def read_bit_case(at, declared, body):
    """A call of txp_read_bit."""
    why = second.lacking(at, declared, body)
    numbers = ({'ending': ENDINGS.index(why)} if why else
               {'bits': 1, 'value': second.unpack(body)[at]})
    return case('V', (at, declared), answer(**numbers), (), body)


def header_cases():
    """(kind, case) of headers by themselves: each field at and past its limits,
    the body whole, short or too long, and files cut inside the header."""
    sizes = list(product((0, 1, 2, 3, 7, 8, 9, 10, 11, 255), (0, 1, 2, 8)))
    sizes += [(9, 9), (10, 9), (10, 10)]
    for (N, L), P, declared in product(sizes, (0, 24, 25, 255),
                                       (0, 37, 2 ** 32 - 1)):
        for body in ([], [1] * 16, [1] * 80):
            yield header_case(second.write_file(N, L, P, declared, body))
    whole = second.write_file(2, 1, 3, 37, [0] * 37)
    for bytes_left in range(len(whole)):
        yield header_case(whole[:bytes_left])
    for place in range(5):
        for byte in (0, 1, 2, 0x54, 0x58, 0x50, 255):
            yield header_case(whole[:place] + bytes((byte,))
                              + whole[place + 1:])


def header_case(data):
    header = second.read_header(data)
    if isinstance(header, Refused):
        return 'refused', case('H', (), answer(header), (), data)
    numbers = dict(zip(('n', 'l', 'planes', 'declared'), header))
    return 'taken', case('H', (), answer(**numbers), (), data)


# Stepped decoder.

# The commands of a dial beside turns: one bit forward and one bit back.
FORWARD, BACK = -1, -2

# The letters of a step forward, a step back and a turn by themselves.
STEPS = 'fbt'


def walked(N, L, P, body, declared, commands, lent):
    """The last answer of a dial, a refusal or None, and the position that it
    leaves; there is none where the start is refused. The record then holds
    what it held, which is out of range."""
    position = second.start(N, L, P, lent)
    if isinstance(position, Refused):
        return Refused(16, 0) if commands else position, None
    refused = None
    for command in commands:
        record = position.record
        if command in (FORWARD, BACK):
            step = second.forward if command == FORWARD else second.back
            got = step(record, body, declared, lent)
            refused = got if isinstance(got, Refused) else None
            position = position if refused else got
        else:
            refused, position = second.turn(record, body, declared, command,
                                            lent)
    return refused, position


def dial_case(N, L, P, body, declared, commands=(), lent=None):
    """A call of txp_start, and of txp_turn, txp_forward and txp_back for each
    command."""
    lent = lent or (4 ** N,) * 3
    refused, position = walked(N, L, P, body, declared, commands, lent)
    tables = tables_of(position) if position else ((),) * 3
    numbers = {} if refused else decoded_numbers(position)
    return case('Y', (N, L, P, declared), answer(refused, **numbers),
                commands, body, desc=(8, position.record if position else ()),
                **dict(zip(DECODED, zip(lent, tables))))


def step_case(letter, record, tables, body, declared, to=0, own=0):
    """A call of txp_forward, txp_back or txp_turn on a given record and on
    given tables, which hold what is lent. Where own is not 0, no prefix leaves
    them, and so much of each is not compared."""
    lent = list(map(len, tables))
    refused, position = None, None
    if not own and letter == 't':
        refused, position = second.turn(record, body, declared, to, lent)
    elif not own:
        step = second.forward if letter == 'f' else second.back
        got = step(record, body, declared, lent)
        refused = got if isinstance(got, Refused) else None
        position = None if refused else got
    after = tables
    if position:
        after = [list(held) + list(table[len(held):])
                 for held, table in zip(tables_of(position), tables)]
    numbers = {} if refused or own else decoded_numbers(position)
    return case(letter, (declared, to, own), answer(refused, **numbers),
                list(record) + [x for table in tables for x in table], body,
                desc=(8, position.record if position else record),
                **dict(zip(DECODED, zip(lent, after))))


def small_bodies():
    """N, L, P, the bits and the body of each small stream."""
    for N, L, A in SMALL:
        P, bits = encode(N, L, A, NO_BUDGET)
        yield N, L, P, bits, second.pack(bits)


def step_cases(seed):
    """(kind, case) of the stepped decoder."""
    rng = random.Random('%d steps' % seed)
    for N, L, P, bits, body in small_bodies():
        count = len(bits)
        for at in range(count):
            yield 'every bit forward', dial_case(N, L, P, body, count,
                                                 [count, at, FORWARD])
        for at in range(count):
            yield 'every bit back', dial_case(N, L, P, body, count,
                                              [at + 1, BACK])
        for commands in ([FORWARD] * count,
                         [FORWARD] * count + [BACK] * count,
                         [FORWARD, FORWARD, BACK] * (count - 1),
                         [count] + [BACK, BACK, FORWARD] * (count - 1)):
            yield 'all bits in a row', dial_case(N, L, P, body, count,
                                                 commands)
    yield from starts(rng)
    yield from walks(rng)
    yield from step_ends(rng)
    yield from refused_steps(rng)
    yield from given_steps(rng)
    yield from unfit_records()
    yield from foreign_steps(rng)


def starts(rng):
    """Starts of each shape, and those that are refused, with a step after
    them."""
    for N, L in shapes(6):
        for P in (0, 24, rng.randint(1, 23)):
            yield 'start', dial_case(N, L, P, b'', 0)
    for N, L, P, lent in product((1, 2, 11, NO_BUDGET), (0, 1, 2, NO_BUDGET),
                                 (24, 25, NO_BUDGET),
                                 ((16,) * 3, (15, 16, 16), (16, 15, 16),
                                  (16, 16, 15), (0,) * 3)):
        if (N, L, P, lent) != (2, 1, 24, (16,) * 3):
            yield 'refused', dial_case(N, L, P, b'', 0, (), lent)
    for N, L, lent in ((9, 8, 4 ** 8), (10, 9, 4 ** 9), (10, 10, 0),
                       (3, 2, 63), (6, 3, 4095)):
        yield 'refused', dial_case(N, L, 24, b'', 0, (), (lent,) * 3)
    for command in (FORWARD, BACK, 0, 5):
        yield 'refused', dial_case(2, 2, 3, b'\xff', 8, (command,), (16,) * 3)
        yield 'refused', dial_case(2, 1, 3, b'\xff', 8, (command,), (15,) * 3)


def walks(rng):
    """Turns to random places and single steps, on tables that may be longer
    than need be; some turns are past the end, and the last command is one of
    each kind."""
    for N, L in shapes(6):
        for n in range({2: 24, 3: 16, 4: 6}.get(N, 3)):
            P = rng.randint(1, 24 if N < 5 else 6)
            data, bits = whole_file(rng, N, L, P)
            body = data[second.HEADER_BYTES:]
            declared = rng.choice((len(bits), len(bits),
                                   rng.randint(0, len(bits)), NO_BUDGET))
            commands = []
            for _ in range(rng.randint(1, 9 if N < 5 else 3)):
                commands += rng.choice((
                    [rng.randint(0, len(bits))],
                    [FORWARD] * rng.randint(1, 5), [BACK] * rng.randint(1, 5),
                    [rng.choice((len(bits) + 1, NO_BUDGET - 2, 0))]))
            commands += ([], [FORWARD], [BACK], [rng.randint(0, len(bits))])[
                n % 4]
            longer = rng.choice((0, 0, 1, 7))
            yield 'walk', dial_case(N, L, P, body, declared, commands,
                                    (4 ** N + longer, 4 ** N, 4 ** N + longer))


def step_ends(rng):
    """Both ends of the usable bits and of the scan: 14, 15 and 13, and what
    is left to do after each; P = 0."""
    for N, L, P, bits, body in small_bodies():
        count = len(bits)
        for last in (count, count - 1, count // 2, 0):
            for commands in ([BACK], [last, FORWARD], [last + 1],
                             [last, FORWARD, BACK], [BACK, FORWARD],
                             [NO_BUDGET - 2], [last, last], [1, BACK, BACK],
                             [last, 0], [last, 0, FORWARD], [0]):
                if N < 4:
                    yield 'ends', dial_case(N, L, P, body, last, commands)
        longer = second.pack(bits + [0] * 9)
        for declared in (count + 1, 8 * len(longer), NO_BUDGET):
            for commands in ([count, FORWARD], [count + 1], [NO_BUDGET - 2],
                             [count, FORWARD, BACK], [count]):
                yield 'beyond', dial_case(N, L, P, longer, declared, commands)
    for N, L in shapes(4):
        for body, declared in ((b'', 0), (b'', 9), (b'\x80', 0), (b'\0', 1),
                               (b'\xff', NO_BUDGET)):
            for commands in ([FORWARD], [BACK], [0], [1], [NO_BUDGET - 2]):
                if N == 2 or declared < 2:
                    yield 'P 0', dial_case(N, L, 0, body, declared, commands)


def refused_steps(rng):
    """Bodies with a contradiction, up to it and past it, and steps from the
    last good position on."""
    for N, L in shapes(4):
        for kind, data, _ in contradictions(rng, N, L, 4 if N < 4 else 1):
            N, L, P, _, bits = second.read_file(data)
            at = second.decode(N, L, P, bits).place
            body = data[second.HEADER_BYTES:]
            for declared, commands in (
                    (len(bits), [at, FORWARD]), (len(bits), [len(bits)]),
                    (NO_BUDGET, [NO_BUDGET - 2]), (at, [at + 1]),
                    (len(bits), [len(bits), BACK, FORWARD, FORWARD]),
                    (len(bits), [len(bits), rng.randint(0, at)])):
                yield kind, dial_case(N, L, P, body, declared, commands)


def given_steps(rng):
    """Steps and turns on a record and tables as decoding a prefix leaves them,
    the tables longer than need be."""
    for N, L, P, bits, body in small_bodies():
        count = len(bits)
        for at in sorted(rng.sample(range(count + 1), 14 if N < 4 else 4)):
            position = second.position_after(N, L, P, bits[:at])
            more = rng.choice((0, 1, 5))
            tables = [list(held) + [rng.randrange(256) for _ in range(more)]
                      for held in tables_of(position)]
            declared = rng.choice((at, count, NO_BUDGET))
            for letter, to in (('f', 0), ('b', NO_BUDGET), ('t', at),
                               ('t', rng.randint(0, count)),
                               ('t', rng.choice((NO_BUDGET, 2 ** 31, 0)))):
                yield 'given', step_case(letter, position.record, tables, body,
                                         declared, to)


def unfit_records():
    """Records of which a field is out of range, alone and together with
    another or with a table that is too short: 16 first, then 5, then 14 or
    15."""
    P, bits = encode(2, 1, SAMPLE, NO_BUDGET)
    body = second.pack(bits)
    largest = NO_BUDGET
    wrong = {'N': (0, 1, 11, 256, largest), 'L': (0, 2, 257, largest),
             'P': (0, 1, 25, 256, largest), 'plane': (3, 258, largest),
             'stage': (3, 256, largest), 'place': (16, 17, 2 ** 31, largest),
             'used': (38, 41, 2 ** 31, largest), 'pending': (2, 256, largest)}

    def each(position, change, short, declared=37):
        """All three calls on a record that is changed so, and on tables of
        which some lack an entry."""
        tables = [list(table)[:16 - lack] for table, lack
                  in zip(tables_of(position), short)]
        record = position.record._replace(**change)
        for letter, to in (('f', 0), ('b', 0), ('t', record.used),
                           ('t', largest)):
            yield step_case(letter, record, tables, body, declared, to)

    middle = second.position_after(2, 1, P, bits[:20])
    whole = second.position_after(2, 1, P, bits)
    first = second.position_after(2, 1, P, [])
    zero = second.position_after(2, 1, 0, [])
    for name, numbers in wrong.items():
        for x in numbers:
            for one in each(middle, {name: x}, (0, 0, 0)):
                yield 'refused16', one
        for other, others in wrong.items():
            if other > name:
                for one in each(middle, {name: numbers[-1], other: others[0]},
                                (0, 0, 0)):
                    yield 'refused16', one
        for one in each(middle, {name: numbers[0]}, (0, 1, 0)):
            yield 'refused16', one
    for position in (whole, zero):
        for change in ({'plane': 1}, {'stage': 0}, {'stage': 1}, {'stage': 3},
                       {'place': 15, 'P': 0}, {'place': 17}, {'pending': 1},
                       {'used': 41}):
            for one in each(position, change, (0, 0, 0), largest):
                yield 'refused16', one
    # the next larger N, whose tables are too short; one table too short
    for change, short in (({'N': 3}, (0, 0, 0)), ({'N': 10}, (0, 0, 0)),
                          ({}, (1, 0, 0)), ({}, (0, 1, 0)), ({}, (0, 0, 1)),
                          ({}, (16, 16, 16))):
        for one in each(middle, change, short):
            yield 'refused5', one
    for position, declared in ((first, 0), (first, 37), (whole, 37), (zero, 0),
                               (whole, largest), (zero, 37)):
        for short in ((0, 0, 0), (1, 0, 0), (0, 0, 1)):
            for one in each(position, {}, short, declared):
                if one.answer[0]:
                    yield 'refused%d' % one.answer[0], one


def foreign_steps(rng):
    """Records in range and tables that no prefix leaves."""
    for N, L in shapes(4):
        I = 4 ** N
        for n in range({2: 24, 3: 8, 4: 2}[N]):
            top = (7, 15, 256)[n % 3]
            P = rng.choice((0, 1, 2, 5, 24))
            declared = rng.randint(1, 40)
            record = Record(N, L, P, 0, 2, I, rng.randint(0, declared), 0)
            if P and n % 8:
                record = record._replace(
                    plane=rng.randrange(P), stage=rng.randrange(3),
                    place=rng.choice((0, rng.randrange(I), I - 1)),
                    pending=rng.randrange(2))
            wide = 2 ** 31 if n % 6 == 5 else 2 ** 25 if n % 2 else 9
            more = rng.choice((0, 3))
            tables = ([rng.randrange(-wide, wide) for _ in range(I + more)],
                      [rng.randrange(256 if n % 2 else 25)
                       for _ in range(I + more)],
                      [rng.randrange(top) for _ in range(I + more)])
            body = rng.randbytes(5)
            for letter, to in (('f', 0), ('b', 0), ('t', rng.randint(0, 41)),
                               ('t', rng.choice((0, NO_BUDGET)))):
                yield 'foreign', step_case(letter, record, tables, body,
                                           declared, to, I)


def wide_walks(rng, N, L):
    """A start and walks of a large N, on an array with few coefficients."""
    P, bits = encode(N, L, scattered(rng, N, 2), NO_BUDGET)
    kind, body, count = 'N %d L %d' % (N, L), second.pack(bits), len(bits)
    yield kind, dial_case(N, L, P, body, count)
    for commands in ([count + 1], [count, FORWARD, count // 2, BACK],
                     [rng.randint(0, count), rng.randint(0, count)]):
        yield kind, dial_case(N, L, P, body, count, commands)


# Transform.

# The calls of the transform by the letters of their cases.
CHANGES = {'x': second.transform, 'r': second.restore}

EXTREMES = second.SAMPLE_LEAST, second.SAMPLE_MOST


def change_case(letter, N, L, ints, lent=None):
    """A call of txp_transform or of txp_restore. lent gives the lengths of the
    output and of the work table, which stands in DESC."""
    lent = lent or (4 ** N,) * 2
    got = CHANGES[letter](N, L, ints, lent)
    refused = got if isinstance(got, Refused) else None
    out, work = second.lent_after(N, got)
    return case(letter, (N, L), answer(refused), ints,
                values=(lent[0], out), desc=(lent[1], work))


def there_and_back(kind, N, L, samples, lent=None):
    """(kind, case) of samples, and of restoring what they become."""
    one = change_case('x', N, L, samples, lent)
    yield kind, one
    yield kind, change_case('r', N, L, one.values, lent)


def back_and_there(kind, N, L, coefficients, lent=None):
    """(kind, case) of coefficients, and of what they become where it is not
    refused."""
    one = change_case('r', N, L, coefficients, lent)
    yield kind, one
    if not one.answer[0]:
        yield kind, change_case('x', N, L, one.values, lent)


def grouped(cases):
    """(kind, case) cases in groups of one kind and letter, each of which then
    has one remark."""
    groups = {}
    for kind, one in cases:
        groups.setdefault((kind, one.letter), []).append((kind, one))
    return [one for group in groups.values() for one in group]


def transform_cases(seed):
    """(kind, case) of the transform and its inverse, up to the largest N whose
    work table `second` has."""
    rng = random.Random('%d transform' % seed)
    yield from there_and_back('worked by hand', 2, 1, SQUARE)
    for N, L in shapes(WORK_N):
        for kind, A in sample_arrays(rng, N, L):
            yield from there_and_back(kind, N, L, A)
        for kind, A in coefficient_arrays(rng, N, L):
            yield from back_and_there(kind, N, L, A)
        if N < 4:
            for kind, A in edge_arrays(rng, N, L):
                yield kind, change_case('r', N, L, A)
    yield from damaged_coefficients()
    yield from outside_samples(rng)
    yield from outside_coefficients(rng)
    yield from change_faults()
    yield from change_sizes()
    yield from change_lengths(rng)


def random_samples(rng, N, least, most):
    """Random samples in a range."""
    return [rng.randint(least, most) for _ in range(4 ** N)]


def spiked(N, ground, spikes):
    """Equal samples but for those at some places."""
    A = [ground] * 4 ** N
    for place, x in spikes.items():
        A[place] = x
    return A


def corners(N):
    """The places of a square's corners."""
    side = 2 ** N
    return 0, side - 1, side * (side - 1), side * side - 1


def tiles(rng, N, side):
    """Samples in raster order that are short to write: one square of this side
    over and over, with extremes at the corners."""
    tile = [[rng.randint(*EXTREMES) for _ in range(side)] for _ in range(side)]
    rows = [row * (2 ** N // side) for row in tile]
    A = [x for row in rows * (2 ** N // side) for x in row]
    for place in corners(N):
        A[place] = rng.choice(EXTREMES)
    return A


def sample_arrays(rng, N, L):
    """(kind, samples) of one shape; of a large N those that are short to
    write."""
    least, most = EXTREMES
    for x in (least, most):
        yield 'constant', [x] * 4 ** N
    for first, other in ((least, most), (most, least)):
        yield 'checkered', checkered(N, 1, first, other)
    yield 'checkered', checkered(N, 2 ** rng.randrange(1, N), most, least)
    for n, place in enumerate(corners(N)):
        for x in EXTREMES if L == N - 1 else EXTREMES[(n + L) % 2:][:1]:
            yield 'spike', spiked(N, 0, {place: x})
    yield 'spike', spiked(N, rng.randint(-9, 9), {
        rng.randrange(4 ** N): rng.randint(least, most) for _ in range(3)})
    if N > 4:
        yield 'tiles', tiles(rng, N, 8 if L == N - 1 else 4)
    for _ in range({2: 8, 3: 3, 4: 1}.get(N, N == 5 and L == 4)):
        yield 'random', random_samples(rng, N, least, most)
    for _ in range({2: 8, 3: 4, 4: 2}.get(N, N == 5 and L % 2 == 0)):
        yield 'small', random_samples(rng, N, -3, 3)
    for _ in range({2: 4, 3: 2}.get(N, 0)):
        yield 'extremes', [rng.choice(EXTREMES) for _ in range(4 ** N)]
        yield 'extremes', random_samples(rng, N, most - 1, most)
        yield 'extremes', random_samples(rng, N, least, least + 1)


def coefficient_arrays(rng, N, L):
    """(kind, coefficients) of one shape that no samples were changed into: at
    the limit, random, and with a coefficient changed by 1 or by more."""
    I, limit = 4 ** N, second.COEFFICIENT_LIMIT
    for x in (limit, -limit):
        yield 'limit', [x] * I
        yield 'limit', spiked(N, 0, {rng.randrange(I): x})
    yield 'limit', [limit, -limit] * (I // 2)
    for most in (20, 3000, 131_072, limit):
        for _ in range({2: 4, 3: 1}.get(N, N == 4 and most == 20)):
            yield 'random', random_samples(rng, N, -most, most)
    for n in range({2: 8, 3: 3}.get(N, 2)):
        A = (random_samples(rng, N, -20_000, 20_000) if N < 4
             else spiked(N, 0, {rng.randrange(I): rng.randint(*EXTREMES)}))
        A = second.to_coefficients(N, L, A)
        A[rng.randrange(I)] += rng.choice(
            (1, -1) if n % 2 else (rng.randint(-40_000, 40_000), limit // 2))
        yield 'damaged', A


def edge_arrays(rng, N, L):
    """(kind, coefficients) whose largest or least sample is just in range or
    just outside: a number that is added to all samples is added to the
    coarsest lows alone."""
    A = random_samples(rng, N, -9, 9)
    linear, coarsest = second.to_coefficients(N, L, A), 4 ** (N - L)
    for more in (EXTREMES[0] - min(A) - 1, EXTREMES[0] - min(A),
                 EXTREMES[1] - max(A), EXTREMES[1] - max(A) + 1):
        yield 'edge', ([low + more for low in linear[:coarsest]]
                       + linear[coarsest:])


def damaged_coefficients():
    """Samples of one extreme with one coefficient changed, each in turn: 18,
    and for a high at the least sample also done."""
    for x, place, more in product(EXTREMES, range(16), (1, -1, 2, -2)):
        A = [x] * 4 + [0] * 12
        A[place] += more
        yield 'damaged', change_case('r', 2, 1, A)
    for N in (5, WORK_N):
        for x, place in product(EXTREMES, (0, 4 ** N - 1)):
            A = [x] * 4 + [0] * (4 ** N - 4)
            A[place] += 2
            yield 'damaged', change_case('r', N, N - 1, A)


def outside_samples(rng):
    """Samples out of range, just and far: 17 with the first raster place, also
    where another has the first linear place."""
    least, most = EXTREMES
    for x in (least - 1, most + 1, -2 ** 31, 2 ** 31 - 1):
        for place in (0, 10, 15):
            yield 'refused17', change_case('x', 2, 1, spiked(2, 5, {place: x}))
        for spikes in ({10: x, 13: x}, {3: x, 4: most + 1}, {0: x, 15: x}):
            yield 'refused17', change_case('x', 2, 1, spiked(2, -5, spikes))
        yield 'refused17', change_case('x', 2, 1, [x] * 16)
    for N, L in ((3, 1), (3, 2), (5, 2), (7, 6), (WORK_N, 1),
                 (WORK_N, WORK_N - 1)):
        for place in (0, 4 ** N // 2 + 2, 4 ** N - 1, rng.randrange(4 ** N)):
            x = rng.choice((least - 1, most + 1))
            yield 'refused17', change_case('x', N, L, spiked(N, 0, {place: x}))


def outside_coefficients(rng):
    """Coefficients over the limit: 4 with the first linear place."""
    over = second.COEFFICIENT_LIMIT + 1
    for x in (over, -over, 2 ** 31 - 1, -2 ** 31):
        for place in (0, 7, 15):
            yield 'refused4', change_case('r', 2, 1, spiked(2, 5, {place: x}))
        for spikes in ({10: x, 13: x}, {3: over, 12: x}):
            yield 'refused4', change_case('r', 2, 1, spiked(2, 5, spikes))
        yield 'refused4', change_case('r', 2, 1, [x] * 16)
    for N, L in ((3, 2), (6, 2), (WORK_N, 4)):
        for place in (4 ** N - 1, rng.randrange(4 ** N)):
            yield 'refused4', change_case('r', N, L,
                                          spiked(N, 0, {place: -over}))


def change_faults():
    """Any faults together: on the way there 1, 2, 3, 5, 17, and on the way back
    1, 2, 3, 4, 5, 18."""
    least, most = EXTREMES
    for side, levels, length, over, short, outside in product(
            (2, 1), (1, 0), (0, 1), (0, 1), ((16, 16), (15, 16), (16, 15)),
            (0, 1)):
        more = [0] * length
        A = spiked(2, 0, {9: most + outside, 12: least}) + more
        if not over:
            yield 'faults', change_case('x', side, levels, A, short)
        A = [most] * 4 + [0] * 12 + more
        A[0] += outside
        A[9] = over * (second.COEFFICIENT_LIMIT + 1)
        yield 'faults', change_case('r', side, levels, A, short)


def change_sizes():
    """N and L that are out of range, and inputs of a length that is not I."""
    largest = NO_BUDGET
    for letter in CHANGES:
        for N in (0, 1, 11, 12, 255, 256, largest):
            for L in (0, 1, N):
                yield 'refused1', change_case(letter, N, L, [0] * 16, (16, 16))
        for N, L in ((2, 0), (2, 2), (2, 3), (3, 0), (3, 3), (3, 256),
                     (3, largest), (8, 8), (9, 9), (10, 0), (10, 10)):
            ints = [0] * (4 ** N if N < 9 else 16)
            yield 'refused2', change_case(letter, N, L, ints, (16, 16))
        for N, count in ((2, 0), (2, 1), (2, 15), (2, 17), (2, 64), (3, 16),
                         (3, 63), (3, 65), (7, 4 ** 7 - 1), (8, 4 ** 8 + 1),
                         (8, 4 ** 7), (9, 4 ** 8), (9, 4 ** 9 - 1), (10, 16),
                         (10, 4 ** 9)):
            lent = 4 ** min(N, WORK_N)
            yield 'refused3', change_case(letter, N, 1, [7] * count,
                                          (lent, lent))


def change_lengths(rng):
    """Outputs and work tables that lack an entry, or have more than need be; at
    N = 9 the work table that `second` has is too short."""
    for N, L in shapes(4) + [(7, 3), (WORK_N, 2)]:
        I = 4 ** N
        A = (random_samples(rng, N, *EXTREMES) if N < 4
             else [rng.randint(*EXTREMES)] * I)
        coefficients = second.to_coefficients(N, L, A)
        for lent in ((I - 1, I), (I, I - 1), (I - 1, I - 1), (0, I), (I, 0)):
            yield 'refused5', change_case('x', N, L, A, lent)
            yield 'refused5', change_case('r', N, L, coefficients, lent)
        more = 0 if N == WORK_N else 1
        for lent in ((I + 1, I), (I, I + more), (I + 64, I + 7 * more)):
            yield from there_and_back('long', N, L, A, lent)
            # 18 clears no more than its own
            yield 'long', change_case('r', N, L, [40_000] * I, lent)
            yield 'long', change_case('x', N, L, [40_000] * I, lent)
    N = STORED_N
    for L, letter in product((1, N - 1), CHANGES):
        yield 'refused5', change_case(letter, N, L, [L] * 4 ** N,
                                      (4 ** N, 4 ** WORK_N))
    over = spiked(N, 0, {4 ** N - 1: second.COEFFICIENT_LIMIT + 1})
    yield 'refused4', change_case('r', N, 3, over, (4 ** N, 4 ** WORK_N))


def patched(rng, N):
    """Samples in raster order that are short to write: equal but for a few
    squares of side 8 at any place, and extremes at the corners."""
    side, A = 2 ** N, [rng.randint(*EXTREMES)] * 4 ** N
    for _ in range(4):
        row, column = (rng.randint(0, side - 8) for _ in range(2))
        for at in range(row * side + column, (row + 8) * side, side):
            A[at:at + 8] = [rng.randint(*EXTREMES) for _ in range(8)]
    for place in corners(N):
        A[place] = rng.choice(EXTREMES)
    return A


def wide_transforms(seed):
    """(kind, case) of the transform for each L of an N whose work table
    `second` does not have, all short to write."""
    rng = random.Random('%d wide transform' % seed)
    for N in range(WORK_N + 1, second.N_LIMIT + 1):
        for L in range(1, N):
            yield from there_and_back('N %d L %d' % (N, L), N, L,
                                      patched(rng, N))
        yield from there_and_back('checkered', N, N - 1,
                                  checkered(N, 1, *EXTREMES))
        yield from wide_change_refusals(N, N - 1)


def wide_change_refusals(N, L):
    """Refusals 3 to 5, 17 and 18 at the limits of a large N, and tables that
    are longer than need be."""
    I = 4 ** N
    for letter in CHANGES:
        for count in (I - 1, I + 1):
            yield 'refused', change_case(letter, N, L, [7] * count)
        for lent in ((I - 1, I), (I, I - 1)):
            yield 'refused', change_case(letter, N, L, [7] * I, lent)
        outside = second.COEFFICIENT_LIMIT if letter == 'r' else 32_767
        for place in (0, I // 2 + 2, I - 1):
            A = spiked(N, 0, {place: outside + 1, I - 1: -outside - 2})
            yield 'refused', change_case(letter, N, L, A)
    for x in (second.COEFFICIENT_LIMIT, -second.COEFFICIENT_LIMIT):
        yield 'limit', change_case('r', N, L, [x] * I, (I + 1, I + 5))
        yield 'limit', change_case('r', N, L, spiked(N, 0, {I - 1: x}))
    yield from there_and_back('long', N, L, [EXTREMES[0]] * I, (I + 64, I + 7))


def dense_transforms(rng):
    """(kind, case) of random samples of a large N, and of restoring them."""
    for N, L in ((9, 5), (second.N_LIMIT, second.N_LIMIT - 1)):
        A = random_samples(rng, N, *EXTREMES)
        yield from there_and_back('random', N, L, A)


# Why the bits ended.

# A body with its declared bits, and the bits used at the last position that a
# dial reaches in it.
End = namedtuple('End', 'P declared body last')


def stream_of(rng, N, L, rest):
    """P and the whole stream, of 3 bytes or more, of an array that is short to
    write; it has one of these numbers of bits past whole bytes."""
    while True:
        P = rng.randint(2, 6)
        A = (one_array(rng, N, P) if N < 5
             else random_array(rng, N, P, 'single'))
        _, bits = encode(N, L, A, NO_BUDGET)
        if len(bits) >= 24 and len(bits) % 8 in rest:
            return P, bits


def stream_ends(rng, N, L):
    """Ends of a stream with padding, and then of one of whole bytes: whole, cut
    and by a budget; about as many bits declared as are there; declared bits
    beyond the last plane, there and not there."""
    P, bits = stream_of(rng, N, L, range(2, 8))
    body, count = second.pack(bits), len(bits)
    yield End(P, count, body, count)
    yield End(P, count, body[:-1], count // 8 * 8)
    there = 8 * rng.randrange(1, count // 8)
    for declared in (there, there - 1, there + 1):
        last = min(declared, there)
        yield End(P, declared, second.pack(bits[:last]), last)
    for declared in (count + 1, NO_BUDGET):
        yield End(P, declared, body, count)
    P, bits = stream_of(rng, N, L, (0,))
    body, count = second.pack(bits), len(bits)
    for declared in (count, count + 1, NO_BUDGET):
        yield End(P, declared, body, count)
    yield End(P, count + 1, body + b'\0', count)


# Of the ends of a stream those that are whole, cut and by a budget.
FIRST_ENDS = 3


def empty_ends(rng):
    """Ends before the first bit: of bodies of no byte, and of P = 0."""
    for P, declared in product((0, rng.randint(1, 24)), (0, 1)):
        yield End(P, declared, b'', 0)
    yield End(0, 1, b'\0', 0)


def ending_cases(seed):
    """(kind, case) of each end, as a file, as a body and by steps; of a large N
    few, which are long to write."""
    rng = random.Random('%d ending' % seed)
    for N, L in shapes(6):
        every = list(stream_ends(rng, N, L)) + list(empty_ends(rng))
        chosen = every if N < 5 else every[:FIRST_ENDS]
        # a body that goes on behind its declared bits
        longer = every[0]._replace(declared=rng.randrange(every[0].declared))
        for end in every:
            yield end_file(N, L, end)
        for P, declared, body, _ in chosen + [longer]:
            yield 'ending', decode_body_case(N, L, P, body, declared,
                                             (4 ** N,) * 3)
        for end in chosen:
            yield from end_walks(N, L, end, N < 5)
        if N < 5:
            for end in chosen:
                yield from end_steps(N, L, end)
            yield from middle_steps(N, L, every[0])
    for N, L in BETWEEN:
        for end in list(stream_ends(rng, N, L))[:FIRST_ENDS]:
            yield end_file(N, L, end)


def end_file(N, L, end):
    """(kind, case) of a file with such a body."""
    header = write_file(N, L, end.P, end.declared, [])
    return 'ending', decode_case(header + end.body)


def end_walks(N, L, end, past):
    """(kind, case) of a dial at the last position of a body and before it, and
    past it."""
    P, declared, body, last = end
    commands = [[last]] + [[last, FORWARD]] * past
    if last:
        commands += [[last, BACK]] + [[last - 1, FORWARD]] * past
    for some in commands:
        yield 'ending', dial_case(N, L, P, body, declared, some)


def end_step(letter, N, L, end, at, to=0):
    """(kind, case) of a step or a turn in a body, on the record and the tables
    of so many bits."""
    position = second.position_after(N, L, end.P,
                                     second.unpack(end.body)[:at])
    return 'ending', step_case(letter, position.record, tables_of(position),
                               end.body, end.declared, to)


def end_steps(N, L, end):
    """(kind, case) of a turn to the last position of a body from there, and of
    a step to it and one back."""
    yield end_step('t', N, L, end, end.last, end.last)
    if end.last:
        yield end_step('f', N, L, end, end.last - 1)
        yield end_step('b', N, L, end, end.last)


def middle_steps(N, L, end):
    """(kind, case) of a step forward to the last position but one of a body,
    and of turns to positions before the last."""
    yield end_step('f', N, L, end, end.last - 2)
    for to in (0, end.last // 2, end.last - 1):
        yield end_step('t', N, L, end, end.last, to)


GOES_ON = 'bits go on'
WORDS = second.WHOLE, second.BUDGET, second.CUT

# What is told apart among the cases of bodies, beside the words: where two of
# them meet, and where the word does not follow from the lengths alone.
DELICATE = ('declared 8 x bytes', 'declared 8 x bytes - 1',
            'declared 8 x bytes + 1', 'whole bytes', 'the padding is missing',
            'bits beyond, there', 'bits beyond, not there', 'no bits declared',
            'no bits there', 'P 0, none declared',
            'P 0, declared and not there', 'P 0, declared and there')
LEFT = 'whole, usable bits left'


def end_kinds(one, P, declared, body):
    """The kinds of a case, by the body that it is lent and by its answer."""
    if one.answer[0] not in (0, 13):
        return []
    beyond = one.answer[0] == 13
    word = None if beyond else (
        ENDINGS[one.answer[ANSWER.index('ending')]] or GOES_ON)
    whole, budget, cut = (word == one for one in WORDS)
    used, there = one.answer[ANSWER.index('bits')], 8 * len(body)
    kinds = {
        word: not beyond,
        'declared 8 x bytes': budget and 0 < declared == there,
        'declared 8 x bytes - 1': budget and 0 < declared == there - 1,
        'declared 8 x bytes + 1': cut and 0 < there == declared - 1,
        'whole bytes': whole and 0 < used == declared == there,
        'the padding is missing': cut and 0 < there < declared - 1 < there + 7,
        'bits beyond, there': beyond and P > 0,
        'bits beyond, not there': whole and 0 < used == there < declared,
        'no bits declared': budget and declared == 0,
        'no bits there': cut and there == 0,
        'P 0, none declared': whole and P == declared == 0,
        'P 0, declared and not there': whole and P == there == 0 < declared,
        'P 0, declared and there': beyond and P == 0,
        LEFT: whole and used < min(declared, there)}
    return [kind for kind, holds in kinds.items() if holds]


def lent_body(one):
    """N, L, P, the declared bits and the body of a case, or None where it is
    lent none, or where its tables are those of no prefix."""
    if one.letter in FILES and one.answer[0] in (0, 13):
        return (*second.read_header(one.file),
                one.file[second.HEADER_BYTES:])
    if one.letter in BODIES or one.letter == 'Y' and one.ints:
        return (*one.numbers, one.file)
    if one.letter in STEPS and not one.numbers[2]:
        return (*one.ints[:3], one.numbers[0], one.file)
    return None


def end_counts(cases):
    """The number of cases of each letter, size and kind."""
    counts = Counter()
    for one in cases:
        lent = lent_body(one)
        if lent:
            N, L, P, declared, body = lent
            counts.update((one.letter, (N, L), kind)
                          for kind in end_kinds(one, P, declared, body))
    return counts


def counted(cases, counts):
    """(kind, case) cases, of which the ends are counted."""
    for kind, one in cases:
        counts.update(end_counts([one]))
        yield kind, one


def check_kinds(counts, asked):
    """Every kind has to be there, of every size, of each letter of those that
    are asked for, which are (letters, kinds, sizes)."""
    for letters, kinds, sizes in asked:
        for letter, kind, (N, L) in product(letters, kinds, sizes):
            if not counts[letter, (N, L), kind]:
                raise SystemExit('%s: no case of N %d L %d: %s'
                                 % (letter, N, L, kind))


def stored_ends(cases):
    """The counts of the stored cases, in which nothing may be missing: the
    words of a file for every size of which there are cases. Among those of
    single bits, each that is at the last bit or next to it, and as many bits
    declared as are there, one more or one fewer."""
    counts = end_counts(cases)
    sizes = {one.numbers[:2] for one in cases
             if one.letter == 'E' and not one.answer[0]}
    sizes |= {size for letter, size, _ in counts if letter in FILES}
    if not sizes >= {*shapes(6), *BETWEEN} | {(STORED_N, L)
                                              for L in range(1, STORED_N)}:
        raise SystemExit('a size has no cases')
    check_kinds(counts, (
        (FILES, WORDS, sorted(sizes)), (FILES, DELICATE, shapes(6)),
        (BODIES, WORDS, shapes(6)), (BODIES, DELICATE, shapes(4)),
        ('Y', (GOES_ON,) + WORDS, shapes(6)),
        ('Y', DELICATE + (LEFT,), shapes(4)),
        ('ft', (GOES_ON,) + WORDS, shapes(4)), ('b', (GOES_ON,), shapes(4)),
        ('t', ('no bits declared', 'no bits there'), shapes(4))))
    near = {tuple(number - 8 * len(one.file) for number in one.numbers)
            for one in cases if one.letter == 'V' and one.file}
    if not near >= set(product((-1, 0, 1), repeat=2)):
        raise SystemExit('V: a place about the last bit is missing')
    return counts


def check_refusals(cases):
    """Each number for no has to be there, of each call that decodes."""
    seen = {(one.letter, one.answer[0]) for one in cases}
    wanted = {*product(FILES, (7, 8, 1, 2, 9, 10, 11, 5, 12, 13)),
              *product(BODIES, (1, 2, 9, 5, 12, 13))}
    if not wanted <= seen:
        raise SystemExit('%s: no case refused by %d' % min(wanted - seen))


def print_ends(counts):
    """How many cases of each kind there are, of each letter."""
    totals = Counter()
    for (letter, _, kind), count in counts.items():
        totals[kind, letter] += count
    for kind in (GOES_ON,) + WORDS + DELICATE + (LEFT,):
        print('ends %s: %s' % (kind, numbered(
            (letter, totals[kind, letter])
            for letter in (*FILES, *BODIES, 'Y', *STEPS))))


def shown_ends(cases, shown):
    """Holds the files of txpshow, which come with its text, to the words and
    the kinds of the cases of the same files."""
    known = {one.file: one for one in cases if one.letter == 'd'}
    check_kinds(end_counts(known[data] for data in shown if data in known), (
        ('d', WORDS + DELICATE, shapes(second.SHOW_N)),))
    words = Counter()
    for data, text in shown.items():
        if text.startswith('TXP'):
            words['d', tuple(data[5:7]), text.split('\n')[0].split()[-1]] += 1
    check_kinds(words, (('d', WORDS, shapes(second.SHOW_N)),))


# Hand-over.

# A coder may take several coefficients at a time while more bits are left than
# these can have, and the last bits one by one. Whatever it does, its answers
# are those of the scan. In these cases so many bits are left at a bit of each
# pass.
HAND_OVER = 'hand-over'
BITS_LEFT = 63, 64, 65, 127, 128, 129
PASSES = 'pixel', 'set', 'refinement'

# N, L and arrays with longer streams than the small ones, whose every budget is
# a case.
LONG = (
    (2, 1, placed(2, {0: 9_000_001, 1: -70_001, 3: 5, 6: -1_234_567, 7: 300,
                      13: -2})),
    (3, 2, placed(3, {0: 300, 1: -7, 6: -100, 7: 1, 27: 33, 30: -200, 47: 5,
                      63: -2})))

# The bytes that an output has more than is asked for, and the offset of
# txp_encode_body, or None for txp_encode.
ROOMS = ((0, None), (0, 1), (1, None), (9, 13), (0, 7), (8, None), (0, 5),
         (40, 3))

# What is refused: the contradictions, and bits left after plane 0; and where,
# by the bits left at the refused bit.
CLASHES = '12a', '12b', '12c', '12d'
BEYOND = '13'
WHERE = {'behind': range(1, 120), 'at': range(120, 129),
         'before': range(129, 1000)}

# The kinds of these cases.
EVERY_BUDGET = HAND_OVER + ' every budget'
FLIPPED = HAND_OVER + ' flipped'
DAMAGED = {what: '%s %s' % (HAND_OVER, what) for what in (*CLASHES, BEYOND)}

# A whole stream: its array, its bits, and what each of them answers.
Stream = namedtuple('Stream', 'N L P A bits body answers')


def whole_stream(N, L, A):
    """The stream of an array."""
    P, bits = encode(N, L, A, NO_BUDGET)
    return Stream(N, L, P, A, bits, second.pack(bits), asked(N, L, P, bits))


def is_long(stream):
    """Is it one of the LONG streams?"""
    return (stream.N, stream.L, stream.A) in LONG


def minus(A):
    """An array with all signs minus."""
    return [-abs(a) for a in A]


def stored_streams(seed):
    """Streams of each N up to 6 that are short to write."""
    rng = random.Random('%d streams' % seed)
    return [whole_stream(*one) for one in (
        *LONG, (2, 1, at_once(rng, 2, 24)), (2, 1, at_once(rng, 2, 8)),
        (2, 1, minus(random_array(rng, 2, 24, 'lengths'))),
        (3, 1, at_once(rng, 3, 3)), (3, 2, in_runs(rng, 3, 4)),
        (3, 1, random_array(rng, 3, 24, 'sparse')),
        (4, 3, random_array(rng, 4, 24, 'single')), (4, 1, in_runs(rng, 4, 2)),
        (4, 2, at_once(rng, 4, 1)), (4, 2, scattered(rng, 4, 4)),
        (5, 3, random_array(rng, 5, 24, 'single')), (5, 2, in_runs(rng, 5, 2)),
        (5, 4, scattered(rng, 5, 4)),
        (6, 4, random_array(rng, 6, 24, 'single')), (6, 3, in_runs(rng, 6, 2)),
        (6, 5, scattered(rng, 6, 3)))]


def large_streams(seed):
    """Streams of which there are cases at every pass: of every N and L up to
    N = 6, and some more of a small N."""
    rng = random.Random('%d large streams' % seed)
    arrays = [*LONG, (2, 1, at_once(rng, 2, 24)),
              (2, 1, random_array(rng, 2, 24, 'lengths')),
              (2, 1, minus(random_array(rng, 2, 24, 'dense'))),
              (3, 2, at_once(rng, 3, 6)), (4, 2, at_once(rng, 4, 2)),
              (5, 3, random_array(rng, 5, 2, 'lengths'))]
    for N, L in shapes(6)[1:]:
        A = (random_array(rng, N, 3, 'lengths') if N < 5
             else scattered(rng, N, 3))
        arrays.append((N, L, minus(A) if L == 2 else A))
    return [whole_stream(*one) for one in arrays]


def wide_streams(seed):
    """Streams that are long to write, of which there are few cases."""
    rng = random.Random('%d wide streams' % seed)
    return [whole_stream(*one) for one in (
        (5, 2, at_once(rng, 5, 2)), (6, 2, at_once(rng, 6, 2)),
        (6, 5, random_array(rng, 6, 3, 'lengths')),
        (8, 4, scattered(rng, 8, 3)), (8, 7, scattered(rng, 8, 3)))]


def pass_bits(stream):
    """(pass, bit) of the first bit of each pass of each plane, one inside it
    and the last."""
    first = 0
    for (_, stage), answers in groupby(stream.answers,
                                       lambda one: (one.b, one.stage)):
        last = first + len(list(answers)) - 1
        for at in sorted({first, (first + last) // 2, last}):
            yield stage, at
        first = last + 1


def cuts_left(stream, stage, left, beyond=0):
    """The numbers of bits of which so many are left at such a bit of a pass; at
    most a few beyond the stream."""
    return [at + left for of, at in pass_bits(stream)
            if of == stage and at + left <= len(stream.bits) + beyond]


def byte_cuts_left(stream, stage, left):
    """Those of whole bytes, for any bit of a pass."""
    return [at + left for at, one in enumerate(stream.answers)
            if one.stage == stage and (at + left) % 8 == 0
            and at + left <= len(stream.bits)]


def all_cuts_left(stream, beyond=0):
    """Those of every pass; of the LONG streams every number of bits."""
    most = len(stream.bits) + beyond
    if is_long(stream):
        return list(range(most + 1))
    return sorted({at + left for (_, at), left
                   in product(pass_bits(stream), BITS_LEFT)
                   if at + left <= most})


def budget_case(stream, budget, room):
    """A call that encodes a stream's array, with one of the ROOMS."""
    N, L, P, A = stream[:4]
    I, (more, offset) = 4 ** N, room
    bytes_lent = second.output_bytes(N, L, P, budget) + more
    one = encode_case(N, L, budget, A, (I // 4, I // 16, I, bytes_lent))
    return one if offset is None else encode_body_case(one, offset)


def declared_case(stream, count, as_file):
    """A call on so many declared bits of a stream: on its body, which goes on
    behind them, or on a file."""
    N, L, P = stream[:3]
    if as_file:
        return decode_case(write_file(N, L, P, count, stream.bits[:count]))
    return decode_body_case(N, L, P, stream.body, count, (4 ** N,) * 3)


def present_case(stream, count, as_file):
    """A call on a stream of which only the bytes of so many bits are there: on
    its body, or on a file. All its bits are declared, or as many as can be."""
    N, L, P = stream[:3]
    body = stream.body[:count // 8]
    declared = len(stream.bits) if count % 16 else NO_BUDGET
    if as_file:
        return decode_case(write_file(N, L, P, declared, []) + body)
    return decode_body_case(N, L, P, body, declared, (4 ** N,) * 3)


def in_turn(rng, streams, turn, cuts):
    """One of the streams, each in turn, that has such numbers of bits, and one
    of these."""
    turn %= len(streams)
    for stream in streams[turn:] + streams[:turn]:
        found = cuts(stream)
        if found:
            return stream, rng.choice(found)
    raise SystemExit('hand-over: no stream has so many bits left')


def some_left(rng, streams, times):
    """(kind, case) of so many cases of each call for each pass and number of
    bits left."""
    asked_for = product(range(times), PASSES, BITS_LEFT)
    for turn, (_, stage, left) in enumerate(asked_for):
        room = ROOMS[turn % len(ROOMS)]
        stream, count = in_turn(rng, streams, turn,
                                lambda one: cuts_left(one, stage, left, 2))
        yield HAND_OVER, budget_case(stream, count, room)
        stream, count = in_turn(rng, streams, turn,
                                lambda one: cuts_left(one, stage, left))
        yield HAND_OVER, declared_case(stream, count, turn % 4 == 1)
        stream, count = in_turn(rng, streams, turn,
                                lambda one: byte_cuts_left(one, stage, left))
        yield HAND_OVER, present_case(stream, count, turn % 2)


def clashes_of(N, L, P, bits):
    """(what, bit) of each bit of a stream's set passes that may not be 0."""
    for n, one in enumerate(asked(N, L, P, bits)):
        if one.bit and one.stage == 'set' and one.what != 'sign':
            wrong = Decoder(N, L, P, bits[:n] + [0])
            if wrong.run():
                yield '12' + clash_kind(wrong), n


def clashing_stream(rng, N, L):
    """P and the whole stream of an array that is short to write, with a bit
    that may not be 0 for each contradiction but the first."""
    wanted = set(CLASHES[1:] if L > 1 else CLASHES[1:2])
    while True:
        P = rng.randint(2, 5)
        _, bits = encode(N, L, scattered(rng, N, P), NO_BUDGET)
        found = {}
        for what, n in clashes_of(N, L, P, bits):
            found.setdefault(what, []).append(n)
        if set(found) == wanted:
            return P, bits, {what: rng.choice(found[what]) for what
                             in sorted(found)}


def refused_case(rng, N, L, P, bits, left):
    """A call on a body whose bits go on at random behind these. So many of the
    usable ones come from the last of these on, which is refused. The body ends
    with them where they fill bytes, and goes on behind them elsewhere."""
    count = len(bits) - 1 + left
    bits = bits + random_bits(rng, left + 9, 0.5)
    body, declared = second.pack(bits[:count + 9]), count
    if count % 8 == 0:
        body, declared = second.pack(bits[:count]), NO_BUDGET
    return decode_body_case(N, L, P, body, declared, (4 ** N,) * 3)


def refusals_left(rng, sizes, lefts):
    """(kind, case) of bodies of these sizes that are refused, each kind of
    refusal with so many bits left as lefts gives for each of its turns."""
    turns = Counter()

    def each(what, N, L, P, bits):
        """Cases of bits of which the last is refused."""
        for left in lefts(turns[what]):
            yield DAMAGED[what], refused_case(rng, N, L, P, bits, left)
        turns[what] += 1

    for N, L in sizes:
        D = 4 ** (N - L)
        # every coefficient and every set of plane P-1 is 0
        yield from each('12a', N, L, rng.randint(1, 24),
                        [0] * (D + 3 * D // 4))
        P, bits, chosen = clashing_stream(rng, N, L)
        for what, n in chosen.items():
            yield from each(what, N, L, P, bits[:n] + [0])
        yield from each(BEYOND, N, L, P, bits + [rng.randrange(2)])
    yield from each(BEYOND, 2, 1, 0, [1])


def flipped(stream, one_in):
    """(kind, case) of a whole stream with one of its last 141 bits flipped, for
    one in so many of them and for each that is the first to be refused at its
    bit."""
    N, L, P = stream[:3]
    seen = set()
    for back in range(141):
        bits = list(stream.bits)
        bits[-1 - back] ^= 1
        one = decode_body_case(N, L, P, second.pack(bits), len(bits),
                               (4 ** N,) * 3)
        refused = one.answer[0] and tuple(one.answer)
        if back % one_in == 0 or refused and refused not in seen:
            yield FLIPPED, one
        seen.add(refused)


def hand_over_cases(seed, streams):
    """(kind, case) of the stored cases."""
    rng = random.Random('%d hand-over' % seed)
    for stream in filter(is_long, streams):
        for budget in range(len(stream.bits) + 3):
            # of the second of them one in 4 has more room
            room = ROOMS[5 if stream.N > 2 and budget % 4 == 0 else 0]
            yield EVERY_BUDGET, budget_case(stream, budget, room)
    for N in range(2, 7):
        own = [stream for stream in streams if stream.N == N]
        yield from some_left(rng, own, 2 if N == 3 else 1)
        for n, left in enumerate(BITS_LEFT):
            stream = own[n % len(own)]
            yield HAND_OVER, budget_case(stream, len(stream.bits) + left,
                                         ROOMS[n])
    yield from refusals_left(rng, shapes(6), lambda turn: (
        (1, 2, 63, 64, 65, 100, 119)[turn % 7], 120 + turn % 9,
        129 + turn % 12, rng.randint(150, 400)))
    for stream in filter(is_long, streams):
        yield from flipped(stream, 20)


def large_hand_over(seed, streams, wide):
    """(kind, case) of those that are not stored: at every pass of some streams,
    and a few of wide ones; with every number of bits left at a bit that is
    refused, and with every bit flipped."""
    rng = random.Random('%d large hand-over' % seed)
    for stream in streams:
        for n, count in enumerate(all_cuts_left(stream, 2)):
            yield HAND_OVER, budget_case(stream, count, ROOMS[n % len(ROOMS)])
            if count <= len(stream.bits):
                cut = declared_case if count % 8 else present_case
                yield HAND_OVER, cut(stream, count, n % 3 == 0)
    for N in (5, 6, 8):
        yield from some_left(rng, [one for one in wide if one.N == N], 1)
    yield from refusals_left(rng, ((2, 1), (3, 2), (4, 2)),
                             lambda turn: range(1, 141))
    for stream in streams:
        if is_long(stream) or stream.N == 4 and stream.L == 3:
            yield from flipped(stream, 1)


# What is told apart among these cases, in rows of some columns each. What ends
# the bits: a budget, the declared bits or the bytes that are there; the bits
# that are left at a bit of a pass, and of a budget also behind the last bit.
ENDED_BY = 'budget', 'declared', 'bytes'
BEHIND_ALL = 'budget, behind the last bit'
LEFT_ROWS = {'%s, %s pass' % (end, stage): BITS_LEFT
             for end, stage in product(ENDED_BY, PASSES)}
# The calls that encode, with an offset of the second, and the bytes that the
# output has more than are written.
ROOM_ROWS = {'output of %s' % letter: ('exact', 'longer') for letter in 'EB'}
ARRAY_ROWS = {what: ('encoded', 'decoded') for what in (
    'few coefficients', 'all found in the first plane', 'all signs minus',
    '24 planes', 'at most 8 planes')}
REFUSED_ROWS = {'refused by ' + what: tuple(WHERE) for what in DAMAGED}
FLIPPED_ROW = 'one bit flipped'
ROWS = {**LEFT_ROWS, BEHIND_ALL: BITS_LEFT, **ROOM_ROWS, **ARRAY_ROWS,
        **REFUSED_ROWS, FLIPPED_ROW: ('taken', 'refused')}


def bits_of_case(one):
    """What ends the bits of a case, and the number of bits."""
    if one.letter in 'EB':
        return ENDED_BY[0], one.numbers[-1]
    declared, body = lent_body(one)[3:]
    return (ENDED_BY[1 + (declared > 8 * len(body))],
            second.usable_bits(body, declared))


def stream_for(one, streams):
    """The number of the stream that a case encodes or begins to decode, or None
    where it is none of these."""
    if one.letter in 'EB':
        wanted = *one.numbers[:2], one.ints
        found = (n for n, stream in enumerate(streams)
                 if (stream.N, stream.L, stream.A) == wanted)
    else:
        N, L, P, declared, body = lent_body(one)
        bits = second.unpack(body)[:declared]
        found = (n for n, stream in enumerate(streams)
                 if stream[:3] == (N, L, P)
                 and stream.bits[:len(bits)] == bits)
    return next(found, None)


def taken_kinds(one, stream):
    """(row, column) of a case that comes from a stream."""
    end, count = bits_of_case(one)
    for left in BITS_LEFT:
        at = count - left
        if at == len(stream.bits):
            yield BEHIND_ALL, left
        elif 0 <= at < len(stream.bits):
            yield '%s, %s pass' % (end, stream.answers[at].stage), left
    encodes = one.letter in 'EB'
    if one.letter == 'E' or one.letter == 'B' and one.numbers[2]:
        longer = one.lent[TABLES.index('bytes')] > len(one.bytes)
        yield 'output of ' + one.letter, 'longer' if longer else 'exact'
    sizes = list(map(abs, stream.A))
    for what, holds in zip(ARRAY_ROWS, (
            2 * sizes.count(0) >= len(sizes), min(sizes) >> stream.P - 1,
            max(stream.A) <= 0, stream.P == second.PLANE_LIMIT,
            stream.P <= 8)):
        if holds:
            yield what, 'encoded' if encodes else 'decoded'


def refused_kinds(one):
    """(row, column) of a body that is refused, by the second coder's own
    contradiction and by the bits left at the refused bit."""
    N, L, P, declared, body = lent_body(one)
    number, _, place = one.answer[:3]
    what = str(number)
    if number == 12:
        decoder = Decoder(N, L, P, second.unpack(body)[:place + 1])
        decoder.run()
        what += clash_kind(decoder)
    left = second.usable_bits(body, declared) - place
    for where, bits in WHERE.items():
        if left in bits:
            yield 'refused by ' + what, where


def hand_over_counts(cases, streams):
    """The number of (kind, case) cases of each row, column and N."""
    counts = Counter()
    for kind, one in cases:
        if not kind.startswith(HAND_OVER):
            continue
        N = one.numbers[0] if one.numbers else one.file[5]
        if kind == FLIPPED:
            told = [(FLIPPED_ROW, 'refused' if one.answer[0] else 'taken')]
        elif one.answer[0]:
            told = refused_kinds(one)
        else:
            told = taken_kinds(one, streams[stream_for(one, streams)])
        counts.update((*pair, N) for pair in told)
    return counts


def check_rows(counts, rows, sides):
    """Every column of these rows has to be there, for every N."""
    for row, N in product(rows, sides):
        # N = 2 has no GRAND
        if N == 2 and row[-3:] in CLASHES[2:]:
            continue
        for column in ROWS[row]:
            if not counts[row, column, N]:
                raise SystemExit('hand-over: no case of N %d: %s: %s'
                                 % (N, row, column))


def check_cuts(cases, streams, calls):
    """Every number of bits that all_cuts_left gives for a stream has to be
    there, in a case of one of these letters; calls has such letters, and how
    many bits they may have beyond the stream."""
    seen = set()
    for kind, one in cases:
        if kind in (HAND_OVER, EVERY_BUDGET):
            seen.add((one.letter, stream_for(one, streams),
                      bits_of_case(one)[1]))
    for (letters, beyond), (n, stream) in product(calls, enumerate(streams)):
        for count in all_cuts_left(stream, beyond):
            if not any((letter, n, count) in seen for letter in letters):
                raise SystemExit('hand-over: N %d L %d: no case of %s with %d '
                                 'bits' % (*stream[:2], letters, count))


def stored_hand_over(cases, streams):
    """The counts of the stored cases, in which nothing may be missing: every
    row for N up to 6, flipped bits of the LONG streams, and every budget of
    these."""
    counts = hand_over_counts(cases, streams)
    check_rows(counts, [row for row in ROWS if row != FLIPPED_ROW], range(2, 7))
    check_rows(counts, [FLIPPED_ROW], (N for N, _, _ in LONG))
    check_cuts(cases, list(filter(is_long, streams)), [('E', 2)])
    return counts


def unstored_hand_over(cases, streams, wide):
    """The counts of the cases that are not stored, in which nothing may be
    missing: all that is asked for of every stream, encoded and decoded by both
    rules, and what is asked for of the wide ones."""
    counts = hand_over_counts(cases, streams + wide)
    check_rows(counts, LEFT_ROWS, (2, 3, 4, 5, 6, 8))
    check_rows(counts, [*REFUSED_ROWS, FLIPPED_ROW], range(2, 5))
    check_cuts(cases, streams, [('EB', 2), ('cd', 0), ('CD', 0)])
    return counts


def print_hand_over(counts):
    """How many cases there are of each row, for each N, column by column."""
    for row, columns in ROWS.items():
        each = {N: [counts[row, column, N] for column in columns]
                for N in range(2, second.N_LIMIT + 1)}
        print('hand-over %s (%s): %s' % (
            row, ' '.join(map(str, columns)), ', '.join(
                'N %d: %s' % (N, ' '.join(map(str, numbers)))
                for N, numbers in each.items() if any(numbers))))


# Rules for a value.

# Kinds with many or long cases: of those by the midpoint with the same values
# by the default rule, one in so many is a case by this rule too. Of all others
# each is.
MANY = ('whole', 'cut', 'short', 'absent', 'header', 'padding', 'surplus',
        'dense', *DAMAGED.values(), FLIPPED)
ONE_IN = 4

# What is told apart among the cases by the default rule: where its values are
# others than the midpoint's, the precisions of found coefficients, and whether
# there are two of them. By both rules a value is the same where the precision
# is 0, and where nothing is known.
DIFFERENT = 'values are not those of the midpoint'
FOUND = ['a found coefficient has precision %d' % k
         for k in range(second.PLANE_LIMIT)]
TWO = 'found coefficients have two precisions'
UNKNOWN = 'a coefficient not found has a precision over 0'


def rule_kinds(one, other):
    """The kinds of a case by the default rule, the other being by the
    midpoint."""
    if one.answer[0]:
        return []
    pairs = set(zip(one.values, one.bytes))
    found = {k for value, k in pairs if value}
    kinds = {DIFFERENT: one.values != other.values, TWO: len(found) > 1,
             UNKNOWN: any(k and not value for value, k in pairs)}
    return [FOUND[k] for k in found] + [kind for kind, holds in kinds.items()
                                        if holds]


def with_default(cases, counts):
    """(kind, case) cases, those by the midpoint followed by one by the default
    rule on what they are lent, of which the kinds of each letter and size are
    counted."""
    alike = Counter()
    for kind, one in cases:
        yield kind, one
        if one.letter not in BY_MIDPOINT:
            continue
        default = default_case(one)
        kinds = rule_kinds(default, one)
        if kind in MANY and DIFFERENT not in kinds:
            alike[kind] += 1
            if alike[kind] % ONE_IN:
                continue
        size = one.file[5:7] if one.letter in FILES else one.numbers[:2]
        counts.update((default.letter, tuple(size), what) for what in kinds)
        yield kind, default


def default_cases(cases):
    """(kind, case) of the calls by the default rule on what those by the
    midpoint are lent, in which nothing may be missing: of every size values
    that are others than the midpoint's and, of a file, both kinds that are the
    same; of a small one found coefficients of two precisions; and of N = 2
    those of each precision."""
    counts = Counter()
    made = grouped(pair for pair in with_default(cases, counts)
                   if pair[1].letter in BY_DEFAULT)
    largest = [(STORED_N, L) for L in range(1, STORED_N)]
    check_kinds(counts, (
        ('D', (DIFFERENT, FOUND[0], UNKNOWN),
         [*shapes(6), *BETWEEN, *largest]),
        ('D', (TWO,), shapes(5)), ('D', FOUND, shapes(2)),
        ('C', (DIFFERENT, FOUND[0], UNKNOWN), shapes(6)),
        ('C', (TWO,), shapes(3)), ('C', (DIFFERENT, UNKNOWN), largest)))
    print_rules(counts)
    return made


def print_rules(counts):
    """How many cases by the default rule there are of each kind, for each
    N."""
    totals = Counter()
    for (letter, (N, _), kind), count in counts.items():
        totals[letter, kind, N] += count
    for letter, kind in product(BY_DEFAULT,
                                (DIFFERENT, TWO, FOUND[0], UNKNOWN)):
        print('rules %s %s: %s' % (letter, kind, numbered(
            ('N %d:' % N, totals[letter, kind, N])
            for N in range(2, second.N_LIMIT + 1))))


# Cases of a large N.

# The L of which there are cases on a body of the largest N.
WIDE_BODIES = 1, 4, 9


def stored_cases(seed):
    """(kind, case) of cases that are short to write, of the largest N that
    `second` has tables for."""
    N = STORED_N
    rng = random.Random('%d stored' % seed)
    for L in range(1, N):
        kind = 'N %d L %d' % (N, L)
        yield from sparse_cases(rng, kind, N, L)
        yield from body_cases(rng, kind, N, L)
        yield from cut_cases(rng, kind, N, L, tiled(rng, N, rng.randint(5, 24)))
        for one in coded(N, L, NO_BUDGET, tiled(rng, N, 1 + (L > 6))):
            yield kind, one
    for L in (3, N - 1):
        yield from wide_refusals(rng, N, L)
    arrays = [random_array(rng, N, 24, 'single') for _ in range(3)]
    yield from whole_arrays(N, arrays + [tiled(rng, N, 24)], 4 ** N)
    for L in (3, N - 1):
        yield from wide_walks(rng, N, L)


def large_cases(seed):
    """(kind, case) of cases that are long to write, or of an N that `second`
    has no tables for."""
    rng = random.Random('%d large' % seed)
    N = second.N_LIMIT
    for L in range(1, N):
        kind = 'N %d L %d' % (N, L)
        yield from sparse_cases(rng, kind, N, L)
        if L in WIDE_BODIES:
            yield from body_cases(rng, kind, N, L)
        yield from cut_cases(rng, kind, N, L, stretched(rng, N, 20))
    yield from cut_cases(rng, 'dense', N, 8, random_array(rng, N, 20, 'decay'))
    dense = [(9, 1, 2), (9, 8, 2)] + [(N, L, 1) for L in range(1, N)]
    for N, L, P in dense:
        A = random_array(rng, N, P, 'dense')
        I, room = 4 ** N, second.output_bytes(N, L, P, NO_BUDGET)
        one = encode_case(N, L, NO_BUDGET, A,
                          (I // 4 + 3, I // 16 + 2, I + 1, room + 5))
        yield 'dense', one
        yield 'dense', decode_case(one.bytes, (I + 1, I + 5, I + 64))
    N = second.N_LIMIT
    for L in (4, N - 1):
        yield from wide_refusals(rng, N, L)
    yield from whole_arrays(N, [list(range(4 ** N))], 4 ** N + 7)
    for L in (4, N - 1):
        yield from wide_walks(rng, N, L)
    yield from dense_transforms(rng)


def coded(N, L, budget, A):
    """An encode case and the decode case of its file."""
    one = encode_case(N, L, budget, A)
    yield one
    yield decode_case(one.bytes)


def sparse_cases(rng, kind, N, L):
    """Cases of an array with few coefficients, whole, and of a file without a
    body."""
    for one in coded(N, L, NO_BUDGET, scattered(rng, N, 1 if L == 1 else 3)):
        yield kind, one
    yield kind, decode_case(write_file(N, L, rng.randint(0, 24), 9, []))


def cut_cases(rng, kind, N, L, A):
    """Cases of an array whose stream is cut, by a budget or in a short
    file."""
    one, back = coded(N, L, rng.randint(1000, 30_000), A)
    yield kind, one
    yield kind, back
    yield kind, decode_case(one.bytes[:rng.randrange(12, len(one.bytes))])


def body_cases(rng, kind, N, L):
    """Cases of the other calls on an array with few coefficients, and of one
    with none."""
    one = encode_case(N, L, rng.randint(1000, 9000), scattered(rng, N, 2))
    yield kind, encode_body_case(one, rng.choice((0, 5, 12, 13)))
    body = one.bytes[second.HEADER_BYTES:]
    yield kind, decode_body_case(N, L, 2, body, rng.randint(100, 1000),
                                 (4 ** N,) * 3)
    yield kind, summaries_case(one)
    yield kind, figures_case(one, rng.randrange(2))
    yield kind, case('P', (), answer(planes=2), one.ints)
    yield kind, encode_case(N, L, rng.choice((0, 9)), [0] * 4 ** N)


def wide_refusals(rng, N, L):
    """Refusals 3 to 6 and 10 to 13 at the limits of a large N."""
    I = 4 ** N
    A = scattered(rng, N, 3)
    room = second.output_bytes(N, L, 3, 50)
    enough = I // 4, I // 16, I, room
    for array in (A[:16], A[:-1], A + [0], A[:-1] + [16_777_216]):
        yield 'refused', encode_case(N, L, 50, array, enough)
    yield 'room', encode_case(N, L, 50, A,
                              (I // 4, I // 16 + 2, I, room))
    for k in range(4):
        lent = [length - (k == n) for n, length in enumerate(enough)]
        yield 'refused', encode_case(N, L, 50, A, lent)
    for k in range(2):
        desc, grand = [length - (k == n) for n, length in enumerate(enough[:2])]
        lent = {'desc': (desc, ()), 'grand': (grand, ())}
        refused = answer(Refused(5, 0))
        yield 'refused', case('S', (N, L), refused, A, **lent)
        yield 'refused', case('G', (N, L, 1), refused, A, **lent)
    # the bits that lead to the last place, each in turn 0
    A = [0] * (I - 1) + [1]
    _, bits = encode(N, L, A, NO_BUDGET)
    kinds = {}
    for n, bit in enumerate(bits):
        if bit:
            wrong = Decoder(N, L, 1, bits[:n] + [0])
            if wrong.run():
                kinds['12' + clash_kind(wrong)] = wrong.bits
    for kind, wrong in sorted(kinds.items()):
        yield kind, decode_case(write_file(N, L, 1, len(wrong), wrong))
    for more in ([0], [1] * 9):
        data = write_file(N, L, 1, len(bits + more), bits + more)
        yield '13', decode_case(data)
    for k in range(3):
        lent = [I - (k == n) for n in range(3)]
        yield 'refused', decode_case(data, lent)
    yield 'refused', decode_case(data + b'\0')
    data = data[:-1] + bytes((data[-1] | 1,))
    yield 'refused', decode_case(data)


def whole_arrays(N, arrays, lent):
    """Linear arrays in raster order and back, and arrays or tables of a wrong
    length."""
    kind = 'N %d' % N
    for A in arrays:
        raster = second.to_raster(N, A)
        yield kind, case('Q', (N,), answer(), A, values=(lent, raster))
        yield kind, case('O', (N,), answer(), raster,
                         values=(lent, second.to_linear(N, raster)))
    for letter, _ in ORDERS:
        for count, lent, number in ((4 ** N - 1, 4 ** N, 3),
                                    (4 ** N + 1, 4 ** N, 3),
                                    (4 ** N, 4 ** N - 1, 5)):
            yield 'refused', case(letter, (N,), answer(Refused(number, 0)),
                                  [0] * count, values=(lent, ()))


# Cases that must differ, and lines that are none.

def damaged(one):
    """(what, case) of a case with one thing wrong: each number of the answer;
    of each table as damaged_tables has it."""
    for place, name in enumerate(ANSWER):
        yield name, one._replace(answer=[
            number ^ (place == k) for k, number in enumerate(one.answer)])
    yield from damaged_tables(one)


def damaged_tables(one):
    """(what, case) of a case with one thing wrong in a table: its first and
    last own entry, one entry fewer, and the entries past its own, past the
    lent end and the last that is compared."""
    for name, lent in zip(TABLES, one.lent):
        own = list(getattr(one, name))

        def wrong(place):
            """The table's entries up to a place, whose entry is wrong."""
            held = own[:place + 1]
            held += [held_before(name, i) for i in range(len(held), place + 1)]
            held[place] ^= 1
            return held

        if lent == 0:
            continue
        if own:
            if own[-1] != held_before(name, len(own) - 1):
                yield name + ' shorter', one._replace(**{name: own[:-1]})
            for place in sorted({0, len(own) - 1}):
                yield name + ' entry', one._replace(
                    **{name: wrong(place) + own[place + 1:]})
        for place in sorted({len(own), lent, lent + PAST - 1}):
            yield name + ' past', one._replace(**{name: wrong(place)})


def held_before(name, i):
    """What entry i of a table holds before a call, as its lists have it."""
    x = before(i)
    if name in ('marks', 'bytes'):
        return x & 255
    return x - 2 ** 32 if name == 'values' else x


def damaged_cases(cases):
    """(kind, case) of cases that must differ: a taken and a refused case of
    each letter, each with one thing wrong."""
    over = list(SAMPLE)
    over[7] = 16_777_216
    lent = 6, 3, 18, 40
    _, bits = encode(2, 1, SAMPLE, NO_BUDGET)
    taken = encode_case(2, 1, 30, SAMPLE, lent)
    chosen = [taken, encode_case(2, 1, 30, over, lent),
              encode_body_case(taken, 5),
              encode_body_case(encode_case(2, 1, 30, over, lent), 5),
              summaries_case(taken), figures_case(taken, 1),
              case('O', (2,), answer(), SAMPLE,
                   values=(18, second.to_linear(2, SAMPLE))),
              case('Q', (2,), answer(), SAMPLE,
                   values=(18, second.to_raster(2, SAMPLE)))]
    for data in (write_file(2, 1, 3, 50, bits[:24]),
                 write_file(2, 1, 3, 39, bits + [1, 0]),
                 write_file(2, 1, 3, 20, [0] * 20),
                 b'TXP\0\2' + bytes(7)):
        decoded = [decode_case(data, (17, 18, 19))]
        if data[4] == 1:
            decoded.append(body_case_of(decoded[0]))
        chosen += decoded + list(map(default_case, decoded))
    chosen += damaged_steps(bits)
    chosen += damaged_changes()
    letters = {one.letter for one in chosen if not one.answer[0]}
    refused = {one.letter for one in chosen if one.answer[0]}
    for _, one in cases:
        known = refused if one.answer[0] else letters
        if one.letter not in known:
            known.add(one.letter)
            chosen.append(one)
    for one in chosen:
        for what, wrong in damaged(one):
            yield 'damaged: ' + what, wrong
    for what, wrong in wrong_rules(bits):
        yield 'damaged: ' + what, wrong


# Places of the sample after so many bits, each with the value that a wrong rule
# gives it: place 3 is 1 with precision 0, and half of 2^0, rounded up, is added;
# of places 13 and 2 nothing is known, with precisions 1 and 2, and half of 2^k
# is given.
WRONG_VALUES = {10: (('half of nothing', 2, 2),),
                30: (('half of 2^0', 3, 2), ('half of nothing', 13, 1))}


def wrong_rules(bits):
    """(what, case) of the calls on cuts of the sample, whose bits these are, and
    on their bodies, as programs with a wrong rule would have them: with all
    values by the other rule, or with a single one of the WRONG_VALUES."""
    for count, wrong in WRONG_VALUES.items():
        one = decode_case(write_file(2, 1, 3, count, bits[:count]))
        for middle in (one, body_case_of(one)):
            low = default_case(middle)
            for right, other in ((middle, low), (low, middle)):
                yield 'the other rule', right._replace(values=other.values)
                for what, place, value in wrong:
                    values = list(right.values)
                    values[place] = value
                    yield what, right._replace(values=values)


def damaged_steps(bits):
    """Cases of the stepped decoder on the sample, whose bits these are: taken
    and refused ones, and those on tables that no prefix leaves."""
    body, longer = second.pack(bits), (17, 18, 19)
    for declared, commands in ((37, [20, FORWARD]), (37, [20, BACK]),
                               (20, [21])):
        yield dial_case(2, 1, 3, body, declared, commands, longer)
    yield dial_case(2, 2, 3, body, 37, [], longer)
    position = second.position_after(2, 1, 3, bits[:20])
    tables = [list(held) + [9] * (lent - 16) for held, lent
              in zip(tables_of(position), longer)]
    unfit = position.record._replace(stage=3)
    for letter in 'fbt':
        for record, own in ((position.record, 0), (unfit, 0),
                            (position.record, 16)):
            yield step_case(letter, record, tables, body, 37, 24, own)
    # refused on tables that no prefix leaves: nothing there may change
    for letter, used in (('f', 37), ('b', 0)):
        yield step_case(letter, position.record._replace(used=used), tables,
                        body, 37, 0, 16)


def damaged_changes():
    """Cases of the transform, worked by hand: taken and refused ones, among
    them one that clears the output."""
    longer, outside = (18, 19), [32_768] + SQUARE[1:]
    yield change_case('x', 2, 1, SQUARE, longer)
    yield change_case('r', 2, 1, CHANGED_LINEAR, longer)
    yield change_case('x', 2, 1, outside, longer)
    yield change_case('r', 2, 1, outside, longer)
    yield change_case('r', 2, 1, [-16_777_216] + CHANGED_LINEAR[1:], longer)


# Lines whose lists repeat what stands before, as few others do: worst bodies
# that agree, and that differ.
AGREE = 'W 3 2 1 ~1 17 0*7 35 0 ~1*8', 'W 3 2 1 ~2 17 0*7 51 ~8*7 0*2'
DIFFER = 'W 3 2 1 ~1 17 0*7 51 0 ~1*8', 'W 3 2 1 ~2 17 0*7 51 ~8*9'

# Lines that are no case.
MALFORMED = (
    '', ' ', 'y', 'e 3 2 1 3', 'WW 3 2 1 3', 'W3 2 1 3', 'W  3 2 1 3',
    'W 3 2 1', 'W 3 2 1 3 ', 'W 3 2 1 3 4', 'W 5 2 1 3 0 0', 'W 3 2 1 x',
    'W 3 2 1 3x', 'W 3 2 1 4294967296', 'W 3 2 1 -2147483649', 'W 3 2 1 -0',
    'W 3 2 1 -', 'W 3 2 1 +3', 'W 3 2 1 3*0', 'W 3 2 1*3', 'W 3 2 1*',
    'W 3 2 1*-1', 'W -1', 'W 3 2 1 3 18 0*18', 'W 3 2 1 3 17 0*16',
    'W 3 2 1 3 17 0*7 58 0*9 6 0*6',
    'W 3 2 1 3 17 0*7 58 0*9 0 0 0 0 0 0 0 0 0',
    'W 3 2 1 ~', 'W 3 2 1 ~0', 'W 3 2 1 ~3', 'W 3 2 1 ~4294967295',
    'W 3 2 1 ~4294967297', 'W 3 2 1 ~-1', 'W 3 2 1 -~1', 'W 3 2 1 ~1x',
    'W 3 2 ~1*0', 'W 3 2 ~1*3', 'W 3 2 ~1*1', 'W 3 2 ~1*', 'W 3 2 1~1',
    'W 3 ~1 2 1', 'W 3 2 1 3 17 ~1*17', 'W 3 2 1 3 17 0 ~2*16')


def damaged_wide(N, work_N):
    """(kind, case) of cases of a large N that must differ: encoding nothing
    and decoding it by both rules, and the transform of the least samples and
    its inverse, for the N of the largest work table."""
    taken = list(coded(N, N - 1, NO_BUDGET, [0] * 4 ** N))
    taken.append(default_case(taken[-1]))
    taken += [one for _, one in there_and_back('', work_N, work_N - 1,
                                               [EXTREMES[0]] * 4 ** work_N)]
    for one in taken:
        for what, wrong in damaged_tables(one):
            yield 'damaged: ' + what, wrong


def remarked(cases, again):
    """The lines of (kind, case) cases, each group of one kind after a
    remark."""
    lines, last = [], None
    for kind, one in cases:
        if (one.letter, kind) != last:
            lines.append('# %s %s\n' % (one.letter, kind))
            last = one.letter, kind
        lines.append(line(one, again))
    return lines


def expected(good, wrong, malformed):
    """What the program prints for good lines, then lines that must differ,
    then malformed ones."""
    told, number = '', len(good)
    for lines, what in ((wrong, 'differs'), (malformed, 'malformed')):
        for one in lines:
            number += 1
            if one[0] != '#':
                told += '%s line %d\n' % (what, number)
    agree = Counter(one[0] for one in good)
    differ = Counter(one[0] for one in wrong)
    counts = ''.join('%s %d agree %d\n' % (letter, agree[letter]
                                           + differ[letter], agree[letter])
                     for letter in sorted(agree) if letter != '#')
    return told, counts + 'malformed %d\n' % len(malformed)


def write(directory, seed):
    """Write all vectors."""
    files = os.path.join(directory, 'txp')
    os.makedirs(files, exist_ok=True)

    def write_cases(folder, good, wrong, malformed):
        told, counts = expected(good, wrong, malformed)
        os.makedirs(os.path.join(directory, folder), exist_ok=True)
        for name, text in (('stdin', ''.join(good + wrong + malformed)),
                           ('stdout', told + counts)):
            with open(os.path.join(directory, folder, name), 'w') as file:
                file.write(text)
        return counts

    shown = {}

    def write_show(number, kind, data):
        name = os.path.join(files, '%04d-%s' % (number, kind))
        shown[data] = second.show(data)
        with open(name + '.txp', 'wb') as file:
            file.write(data)
        with open(name + '.out', 'w') as file:
            file.write(shown[data])

    decodes = list(decode_cases(seed))
    for number, (kind, data, lent) in enumerate(decodes):
        if lent is None and number % (5 if len(data) < 250 else 40) == 0:
            write_show(number, kind, data)
    endings = grouped(ending_cases(seed))
    streams = stored_streams(seed)
    more = list(show_cases(seed))
    more += [(kind, one.file) for kind, one in endings
             if one.letter == 'd' and one.file[5] <= second.SHOW_N]
    for number, (kind, data) in enumerate(more, len(decodes)):
        write_show(number, kind, data)
    cases = list(coder_cases(seed, decodes))
    for more in (worst_cases(), place_cases(seed), order_cases(seed),
                 number_cases(seed), small_cases(), stored_cases(seed),
                 every_bit_cases(), step_cases(seed),
                 grouped(transform_cases(seed)), endings,
                 grouped(hand_over_cases(seed, streams))):
        cases += more
    cases += default_cases(cases)
    print_cuts(cases)
    stored = [one for _, one in cases]
    print_ends(stored_ends(stored))
    shown_ends(stored, shown)
    check_refusals(stored)
    print_hand_over(stored_hand_over(cases, streams))
    good = remarked(cases, True)
    wrong = remarked(damaged_cases(cases), True)
    wrong += remarked(damaged_wide(STORED_N, WORK_N), True)
    if max(map(len, good + wrong)) > STORED_LINE:
        raise SystemExit('a line is too long for the program `second`')
    good, wrong, malformed = (
        lines + [text + '\n' for text in more] for lines, more
        in ((good, AGREE), (wrong, DIFFER), ([], MALFORMED)))
    print(write_cases('', good, wrong, malformed), end='')
    print('large')
    N = second.N_LIMIT
    counts, rules = Counter(), Counter()
    large = counted(with_default(large_cases(seed), rules), counts)
    streams, wide = large_streams(seed), wide_streams(seed)
    over = grouped(with_default(large_hand_over(seed, streams, wide),
                                Counter()))
    print(write_cases('large', remarked(large, False)
                      + remarked(wide_transforms(seed), True)
                      + remarked(over, False),
                      remarked(damaged_wide(N, N), False), []), end='')
    largest = [(N, L) for L in range(1, N)]
    check_kinds(counts, ((FILES, WORDS, largest),))
    check_kinds(rules, (
        ('D', (DIFFERENT, FOUND[0], UNKNOWN), largest),
        ('C', (DIFFERENT, UNKNOWN), [(N, L) for L in WIDE_BODIES])))
    print_rules(rules)
    print_hand_over(unstored_hand_over(over, streams, wide))
    print('files %d' % (len(os.listdir(files)) // 2))
