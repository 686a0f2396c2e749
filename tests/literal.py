"""The scan of document 01 with its marks, sentence by sentence.

It shares no code with second.py and is compared with it.
"""


class NoNextBit(Exception):
    """The next bit exceeds the budget or the usable bits."""


MIP, MNP, MSP, MCP, MD, MG = 1, 2, 3, 4, 5, 6
MN2 = 7

# "Skips: MIP, MNP, MSP, MCP 1; MD 4; MG 16; MNk 4^k." Mark 0 is never visited.
# In document 02, "Marks MN8 and MN9 take codes 13 and 14."
SKIP = [1, 1, 1, 1, 1, 4, 16, 4 ** 2, 4 ** 3, 4 ** 4, 4 ** 5, 4 ** 6, 4 ** 7,
        4 ** 8, 4 ** 9]
# The pass in which a bit is written at a mark; those of MCP, MD and MG are of
# the set pass.
PASS = {MIP: 0, MCP: 1, MD: 1, MG: 1, MSP: 2}
# "In the set pass MIP, MNP and MSP skip 4."
SET_SKIP = [4, 4, 4, 4] + SKIP[4:]


def scan(N, L, P, next_bit, plane_end=lambda b: None):
    """The marks after the scan.

    next_bit(what, place, b, mark) gives the next bit of the stream or raises
    NoNextBit; what is 'own', 'sign', 'desc', 'grand' or 'refine', and place is
    the place of the scan. plane_end(b) is called when plane b ends.
    """
    I, D = 4 ** N, 4 ** (N - L)
    mark = [0] * I

    def push(i):
        k = 2
        while 4 ** (k - 1) * i < I:
            mark[4 ** (k - 1) * i] = MN2 + (k - 2)
            k += 1

    for i in range(D):
        mark[i] = MIP
    for i in range(D, 4 * D, 4):
        mark[i] = MD
        push(i)

    try:
        for b in range(P - 1, -1, -1):
            # "Pixel pass"
            i = 0
            while i < I:
                if mark[i] == MIP:
                    if next_bit('own', i, b, mark):
                        next_bit('sign', i, b, mark)
                        mark[i] = MNP
                    i += 1
                else:
                    i += SKIP[mark[i]]
            # "Set pass"
            i = 0
            while i < I:
                if mark[i] == MD:
                    if next_bit('desc', i, b, mark):
                        mark[i] = mark[i + 1] = mark[i + 2] = mark[i + 3] = MCP
                        if 4 * i < I:
                            mark[4 * i] = MG
                    else:
                        i += 4
                elif mark[i] == MG:
                    if next_bit('grand', i, b, mark):
                        for j in (i, i + 4, i + 8, i + 12):
                            mark[j] = MD
                            push(j)
                    else:
                        i += 16
                elif mark[i] == MCP:
                    if next_bit('own', i, b, mark):
                        next_bit('sign', i, b, mark)
                        mark[i] = MNP
                    else:
                        mark[i] = MIP
                    i += 1
                else:
                    i += SET_SKIP[mark[i]]
            # "Refinement pass"
            i = 0
            while i < I:
                if mark[i] == MSP:
                    next_bit('refine', i, b, mark)
                elif mark[i] == MNP:
                    mark[i] = MSP
                i += SKIP[mark[i]]
            plane_end(b)
    except NoNextBit:
        pass
    return mark


def encode(N, L, A, budget):
    """Bits and marks after the scan of a linear array."""
    I, D = 4 ** N, 4 ** (N - L)
    size = [abs(a) for a in A]
    desc, grand = [0] * (I // 4), [0] * (I // 16)
    for i in range(I // 4 - 1, D // 4 - 1, -1):
        if i < I // 16:
            for c in range(4 * i, 4 * i + 4):
                grand[i] |= desc[c]
            desc[i] = grand[i]
        for c in range(4 * i, 4 * i + 4):
            desc[i] |= size[c]
    bits = []

    def next_bit(what, i, b, _):
        if len(bits) == budget:
            raise NoNextBit
        if what == 'sign':
            bit = int(A[i] < 0)
        elif what == 'desc':
            bit = desc[i // 4] >> b & 1
        elif what == 'grand':
            bit = grand[i // 16] >> b & 1
        else:
            bit = size[i] >> b & 1
        bits.append(bit)
        return bit

    P = max(size).bit_length()
    mark = scan(N, L, P, next_bit)
    return P, bits, mark


def generations(I, what, i):
    """The places held by the set that is tested at place i, as the first and
    the count of each generation: DESC(i/4) begins with the 4 places from i on,
    GRAND(i/16) with 16."""
    count = 4 if what == 'desc' else 16
    while i < I:
        yield i, count
        i, count = 4 * i, 4 * count


def decode(N, L, P, bits):
    """Values by the rules lower and midpoint, precisions, marks, the last
    finished plane (or P), the scan record, and whether the scan ended by
    itself, after it reads bits that begin some array's stream. Nothing is
    refused.

    A place's size has exactly the "Known bits m". In document 02, "The default
    becomes m itself, with its sign; midpoint stays by name."

    A precision is the last finished plane (or P) or, where that is lower, the
    last plane in which the place's own bit was read or, in document 02, "a set
    that holds it was tested 0".

    The record is document 02's "N, L, P, plane, pass, place, bits used, a
    pending sign" where the next bit is missing, or else at the end of plane 0.
    """
    I = 4 ** N
    size, sign = [0] * I, [1] * I
    read = [P] * I         # the last plane in which either came
    used, last = 0, P
    rest, ended = (0, 2, I, 0), True

    def next_bit(what, i, b, mark):
        nonlocal used, rest, ended
        if used == len(bits):
            rest, ended = (b, PASS[mark[i]], i, int(what == 'sign')), False
            raise NoNextBit
        bit = bits[used]
        used += 1
        if what == 'sign':
            size[i], sign[i], read[i] = 1 << b, 1 - 2 * bit, b
        elif what == 'refine':
            size[i], read[i] = size[i] | bit << b, b
        elif what == 'own' and bit == 0:
            read[i] = b
        elif what in ('desc', 'grand') and bit == 0:
            for first, count in generations(I, what, i):
                read[first:first + count] = [b] * count
        return bit

    def plane_end(b):
        nonlocal last
        last = b

    mark = scan(N, L, P, next_bit, plane_end)
    precision = [min(k, last) for k in read]
    lower = [s * m for s, m in zip(sign, size)]
    # "if m is 0 the value is 0, else m + 2^(k-1) with its sign; for k = 0 it is
    # m"
    midpoint = [s * (m + 2 ** k // 2) if m else 0
                for s, m, k in zip(sign, size, precision)]
    plane, stage, place, pending = rest
    record = N, L, P, plane, stage, place, used, pending
    return lower, midpoint, precision, mark, last, record, ended


def ending(N, L, P, body, declared):
    """The word of document 02 for a body that is not refused: why the scan's
    next bit is missing, "declared count reached (also where both fall at one
    bit), or file short", and `whole` where the scan ends by itself."""
    used, word = 0, 'whole'

    def next_bit(*_):
        nonlocal used, word
        if used == declared:
            word = 'budget'
            raise NoNextBit
        if used // 8 == len(body):
            word = 'cut'
            raise NoNextBit
        bit = body[used // 8] >> 7 - used % 8 & 1
        used += 1
        return bit

    scan(N, L, P, next_bit)
    return word
