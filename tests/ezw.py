#!/usr/bin/env python3
"""A known picture: the 8 by 8 coefficients that Shapiro's paper on embedded
zerotrees works through (1993), by the second coder and by txpshow.

    python3 tests/ezw.py [COMMAND [ARGUMENT...]]

COMMAND is target/bin/txpshow if it is not named. The file of the second coder
has to be examples/ezw.txp. It is cut after the bits of each plane, and what
COMMAND prints for each cut has to be what the second coder says, figures and
values alike. The exit status is 1 if anything differs.
"""

import os
import sys

import second
import show
from selftest import EZW, NO_BUDGET

N, L = 3, 2
EXAMPLE = os.path.join(os.path.dirname(__file__), '..', 'examples', 'ezw.txp')


def rows(raster):
    """A picture, one row a line, in columns."""
    return ''.join(' '.join('%4d' % x for x in raster[k:k + 2 ** N]) + '\n'
                   for k in range(0, 4 ** N, 2 ** N))


def shown(command, data):
    """What a command prints for a file."""
    return show.run(command, data)[0].decode()


def main(command):
    """Print and compare; the number of differences."""
    A = second.to_linear(N, EZW)
    P, bits = second.encode(N, L, A, NO_BUDGET)
    data = second.write_file(N, L, P, len(bits), bits)
    print('The picture:\n' + rows(EZW))
    print('The file, %d bits in %d planes:\n%s\n' % (len(bits), P, data.hex()))
    with open(EXAMPLE, 'rb') as file:
        differ = int(file.read() != data)
    print('examples/ezw.txp:', 'differs' if differ else 'the same')
    count = 0
    for b, plane in zip(reversed(range(P)), second.stream_by_plane(N, L, A)):
        count += len(plane)
        cut = second.write_file(N, L, P, count, bits[:count])
        # as txpshow has them
        values = second.to_raster(N, second.decode(
            N, L, P, bits[:count], second.midpoint).values)
        printed = shown(command, cut)
        agrees = printed == second.show(cut) and values == [
            int(word) for line in printed.split('\n')[-9:-1]
            for word in line.split()]
        differ += not agrees
        print('\nAfter plane %d, %d bits; txpshow %s:\n%s' % (
            b, count, 'agrees' if agrees else 'DIFFERS', rows(values)), end='')
    whole = values == EZW
    print('\nThe whole stream gives the picture back:', 'yes' if whole else 'no')
    return differ + (not whole)


if __name__ == '__main__':
    sys.exit(main(sys.argv[1:] or ['target/bin/txpshow']) > 0)
