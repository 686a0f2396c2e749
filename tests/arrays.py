"""Random arrays and bodies for the tests, the same for the same generator."""

STYLES = ('dense', 'sparse', 'lengths', 'decay', 'tree', 'single', 'full')


def random_array(rng, N, P, style):
    """A linear array of exactly P planes in one of the STYLES."""
    I = 4 ** N
    if P == 0:
        return [0] * I
    top = 2 ** P - 1
    if style == 'dense':
        size = [rng.randint(0, top) for _ in range(I)]
    elif style == 'sparse':
        size = [0] * I
        for _ in range(rng.randint(1, 2 + I // 32)):
            size[rng.randrange(I)] = rng.randint(0, top)
    elif style == 'lengths':
        # every length in bits equally likely
        size = [rng.getrandbits(P) >> rng.randint(0, P) for _ in range(I)]
    elif style == 'decay':
        # smaller by a bit or two from each generation to the next
        loss = rng.randint(1, 2)
        size = [rng.getrandbits(P) >> loss * (i.bit_length() // 2)
                for i in range(I)]
    elif style == 'tree':
        # the descendants of one place and nothing else
        root = rng.randint(1, I // 4 - 1)
        size = [rng.getrandbits(P) if is_below(i, root) else 0
                for i in range(I)]
    elif style == 'single':
        size = [0] * I
    else:
        size = [top] * I
    if max(size).bit_length() < P:
        nonzero = [i for i in range(I) if size[i]] or range(I)
        size[rng.choice(nonzero)] = 1 << P - 1 | rng.getrandbits(P)
    return [-m if rng.getrandbits(1) else m for m in size]


def placed(N, coefficients):
    """A linear array with these coefficients, by place, and 0 elsewhere."""
    return [coefficients.get(i, 0) for i in range(4 ** N)]


def scattered(rng, N, P):
    """A linear array of exactly P planes with a few coefficients in each
    generation and in the last place, and none below the first roots: some sets
    are split to the end, and some never."""
    A = [0] * 4 ** N
    for generation in range(N):
        for _ in range(3):
            place = rng.randrange(2 * 4 ** generation, 4 ** (generation + 1))
            A[place] = signed(rng, rng.getrandbits(P))
    A[-1] = signed(rng, 1 << P - 1 | rng.getrandbits(P))
    return A


def tiled(rng, N, P):
    """A linear array of exactly P planes without a 0 that is short to write:
    the same 64 coefficients over and over, with a few others between."""
    top = 2 ** P - 1
    tile = [signed(rng, rng.randint(1, top)) for _ in range(64)]
    A = tile * (4 ** N // 64)
    for _ in range(6):
        A[rng.randrange(4 ** N)] = signed(rng, rng.randint(1, top))
    A[rng.randrange(4 ** N)] = signed(rng, top)
    return A


def stretched(rng, N, P):
    """A linear array of exactly P planes without a 0 that is short to write:
    equal coefficients in a row, ever more of them, and smaller by a bit from
    each generation to the next."""
    A = [signed(rng, 1 << P - 1)]
    while len(A) < 4 ** N:
        size = rng.getrandbits(P) >> len(A).bit_length() // 2 | 1
        A += [signed(rng, size)] * rng.randint(1, 1 + len(A) // 64)
    return A[:4 ** N]


def at_once(rng, N, P):
    """A linear array whose coefficients are all found in plane P-1."""
    return [signed(rng, rng.randrange(1 << P - 1, 1 << P))
            for _ in range(4 ** N)]


def in_runs(rng, N, P):
    """Such an array that is short to write: all coefficients below 0, and equal
    ones in a row."""
    A = []
    while len(A) < 4 ** N:
        A += [-rng.randrange(1 << P - 1, 1 << P)] * rng.randint(1, 4 ** N // 8)
    return A[:4 ** N]


def signed(rng, size):
    """A magnitude with either sign."""
    return -size if rng.getrandbits(1) else size


def is_below(i, root):
    """Is i a descendant of the root?"""
    while i > root:
        i //= 4
        if i == root:
            return True
    return False


def random_bits(rng, count, ones):
    """Bits of which a share of about `ones` are 1."""
    return [int(rng.random() < ones) for _ in range(count)]
