#!/usr/bin/env python3
"""Hold a program that reads a TXP file on standard input, such as txpshow, to
stored files.

    python3 tests/show.py DIR COMMAND [ARGUMENT...]

DIR holds files NAME.txp, and for each as NAME.out what has to be printed for
it, byte for byte: the folder txp of `python3 tests/second.py vectors`. Prints
how many agree, and the first that differ. The exit status is 1 if one differs,
or if there is no file.
"""

import os
import subprocess
import sys

MOST_TOLD = 10


def run(command, data):
    """What a program prints for a file, and its exit status."""
    try:
        done = subprocess.run(command, input=data, stdout=subprocess.PIPE,
                              check=False)
    except OSError as error:
        sys.exit('cannot run %s: %s' % (command[0], error.strerror))
    return done.stdout, done.returncode


def told(name, got, status, wanted):
    """How an output differs from the one wanted."""
    return ('%s: exit status %d\n  got    %r\n  wanted %r'
            % (name, status, got[:300], wanted[:300]))


def read(*path):
    """The bytes of a file."""
    with open(os.path.join(*path), 'rb') as file:
        return file.read()


def main(directory, command):
    """Compare the outputs for all files."""
    names = sorted(name[:-4] for name in os.listdir(directory)
                   if name.endswith('.txp'))
    different = 0
    for name in names:
        wanted = read(directory, name + '.out')
        got, status = run(command, read(directory, name + '.txp'))
        if got != wanted or status != 0:
            different += 1
            if different <= MOST_TOLD:
                print(told(name, got, status, wanted))
    print('files %d agree %d' % (len(names), len(names) - different))
    return 1 if different or not names else 0


if __name__ == '__main__':
    if len(sys.argv) < 3:
        sys.exit(__doc__)
    sys.exit(main(sys.argv[1], sys.argv[2:]))
