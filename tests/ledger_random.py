#!/usr/bin/env python3
"""Runs a ledger program and compares what it prints with ledger_reference.py, byte for byte.

    python3 tests/ledger_random.py --count 1000 --seed 7 -- examples/ledger
    python3 tests/ledger_random.py --cases -- examples/ledger
    python3 tests/ledger_random.py --long -- examples/ledger

`--count` runs so many random inputs, made from `--seed`: right ones, damaged ones, and some of many
strips. `--cases` runs all cases of crates/ledger_cases/data. `--long` runs what is too long for a case:
a million strips and a few more, lines of several megabytes, and inputs that come in small pieces.

Of each difference the input is kept in a file (in `--keep`, else in a new directory) and named with what
was expected and what came. The last line has the counts; the exit code is 1 if anything differs. The
papers say nothing of the program's own exit code, so the codes are counted but only an end by a signal
is a difference.
"""
import argparse
import collections
import itertools
import os
import random
import subprocess
import sys
import tempfile
import threading
import time

import evaluator_vectors
import head_vectors
import value_vectors
from case_files import CRATES
from head_vectors import MOST_LINE, OPTIONAL, cond, lines, prop, show
from ledger_reference import HEADING, ledger
from ledger_vectors import BLUE, FILES, LIME, RED, damaged_input, declared, random_input, random_parts, random_strip, strip

MOST_SECONDS = 300
SHOWN = 400


class Runs:
    """Of one program."""

    def __init__(self, command, keep):
        self.command = command
        self.keep = keep
        self.count = 0
        self.differing = 0
        self.codes = collections.Counter()

    def check(self, name, data):
        self.compare(name, data, ledger(data))

    def compare(self, name, data, wanted):
        self.count += 1
        try:
            ran = subprocess.run(self.command, input=data, stdout=subprocess.PIPE, stderr=subprocess.PIPE, timeout=MOST_SECONDS)
        except subprocess.TimeoutExpired:
            return self.differs(name, data, wanted, b'', 'no end after %d seconds' % MOST_SECONDS)
        self.codes[ran.returncode] += 1
        if ran.stdout != wanted or ran.returncode < 0:
            self.differs(name, data, wanted, ran.stdout, 'code %d, %r' % (ran.returncode, ran.stderr[-SHOWN:]))

    def differs(self, name, data, wanted, found, remark):
        self.differing += 1
        place = ''
        if data is not None:
            os.makedirs(self.keep, exist_ok=True)
            place = os.path.join(self.keep, name.replace(' ', '-'))
            with open(place, 'wb') as out:
                out.write(data)
        at = next((i for i, (a, b) in enumerate(zip(wanted, found)) if a != b), min(len(wanted), len(found)))
        start = max(0, wanted.rfind(b'\n', 0, at) + 1)
        print('%s differs: %s\n  input %s\n  from byte %d on\n  expected %r\n  got      %r' % (name, remark, place, start, wanted[start:start + SHOWN], found[start:start + SHOWN]))

    def stream(self, name, pieces, wanted):
        """An input that is made while the program reads, against lines that are made likewise."""
        self.count += 1
        with subprocess.Popen(self.command, stdin=subprocess.PIPE, stdout=subprocess.PIPE) as ran:
            feeder = threading.Thread(target=feed, args=(ran.stdin, pieces))
            feeder.start()
            differing = first_differing(ran.stdout, wanted)
            ran.stdout.read()
            feeder.join()
        self.codes[ran.returncode] += 1
        if differing or ran.returncode < 0:
            self.differs(name, None, differing[1] if differing else b'', differing[2] if differing else b'', 'line %d, code %d' % (differing[0] if differing else 0, ran.returncode))


def feed(pipe, pieces):
    """The program may stop reading before the input ends."""
    try:
        for piece in pieces:
            pipe.write(piece)
            pipe.flush()
        pipe.close()
    except BrokenPipeError:
        pass


def first_differing(found, wanted):
    """The line's number, what was expected and what came; None if there is none."""
    for number, (a, b) in enumerate(itertools.zip_longest(wanted, found, fillvalue=b''), 1):
        if a != b:
            return number, a, b
    return None


# ---- random inputs

def many_strips(source):
    """Strips of one head, over and over."""
    rows, behind = random_parts(source)
    behind += [random_strip(source, declared(rows)) for _ in range(4)]
    return lines(*rows, *[behind[source.getrandbits(16) % len(behind)] for _ in range(source.getrandbits(12) % 3000)])


def long_strips(source):
    """Lines about as long as they may be, or much longer."""
    rows, behind = random_parts(source)
    sizes = [MOST_LINE + source.getrandbits(2) - 2, source.getrandbits(17)]
    behind.insert(source.getrandbits(8) % (len(behind) + 1), (b'feat\t=' + b'x' * 131072)[:sizes[source.getrandbits(1)]])
    return lines(*rows, *behind)


WAYS = [random_input] * 10 + [damaged_input] * 8 + [many_strips, long_strips]


def forget():
    """What the scripts keep of the expressions before."""
    value_vectors.ASKED.clear()
    head_vectors.judged_once.cache_clear()
    evaluator_vectors.tree_of.cache_clear()


def run_random(runs, count, seed):
    source = random.Random(seed)
    for i in range(count):
        data = WAYS[source.getrandbits(16) % len(WAYS)](source)
        runs.check('random %d %d' % (seed, i), data)
        if i % 200 == 199:
            forget()


# ---- cases

def records(data):
    at = 0
    while at < len(data):
        sizes = [int(part, 16) for part in data[at:at + 13].split(b' ')]
        at += 14
        yield data[at:at + sizes[0]], data[at + sizes[0]:at + sum(sizes)]
        at += sum(sizes)


def run_cases(runs):
    for family in FILES:
        with open(os.path.join(CRATES, 'ledger_cases', 'data', family), 'rb') as file:
            for i, (data, wanted) in enumerate(records(file.read())):
                runs.compare('%s %d' % (family, i), data, wanted)


# ---- long inputs

HEAD = lines(OPTIONAL, prop(b'B'), show(b'${Lap} === undefined'), cond(b'${B} < 0', RED), cond(b'${B} > 39', LIME), cond(b'${Lap} !== undefined', BLUE))
PATTERN = [strip(b'0.25', b'1'), strip(b'', b'40'), strip(b'x', b'1'), strip(b'', b'1'), b'', strip(b'-0', b'-0.5'), strip(b'1')]


def answers_of(pattern):
    """What follows the number in each line."""
    return [line.partition(b'\t')[2] for line in ledger(HEAD + lines(*pattern)).split(b'\n')[1:-1]]


def strip_pieces(count, tail=b''):
    """The head, and so many strips of the pattern in pieces."""
    piece = lines(*PATTERN * 1000)
    yield HEAD
    for _ in range(count // (1000 * len(PATTERN))):
        yield piece
    yield lines(*itertools.islice(itertools.cycle(PATTERN), count % (1000 * len(PATTERN)))) + tail


def strip_lines(count):
    answers = answers_of(PATTERN)
    yield HEADING
    for i in range(count):
        yield b'%d\t%s\n' % (i + 1, answers[i % len(answers)])


def over(place):
    return [b'1000000\trefused\t1\t%d\n' % place]


def slowly(data, size):
    """In pieces, with time between them for the program to read each by itself."""
    for i in range(0, len(data), size):
        time.sleep(0.002)
        yield data[i:i + size]


def run_long(runs):
    most = 999999
    runs.stream('1,000,005 strips', strip_pieces(most + 6), itertools.chain(strip_lines(most), over(most)))
    runs.stream('1,000,000 strips', strip_pieces(most + 1), itertools.chain(strip_lines(most), over(most)))
    runs.stream('999,999 strips', strip_pieces(most), strip_lines(most))
    runs.stream('999,999 strips and one without an end', strip_pieces(most, b'feat'), itertools.chain(strip_lines(most), over(most)))
    runs.stream('999,999 strips and a long one', strip_pieces(most, b'x' * 4097 + b'\nfeat\n'), itertools.chain(strip_lines(most), over(MOST_LINE)))
    runs.stream('a strip without end', itertools.chain([HEAD, lines(*PATTERN)], [b'y' * 65536] * 160), itertools.chain(strip_lines(len(PATTERN)), [b'%d\trefused\t1\t4096\n' % (len(PATTERN) + 1)]))
    for size in (2 ** 20 - 1, 2 ** 20, 5 * 2 ** 20 + 3):
        for fill in (b'z', b'\t', b'feat\t'):
            long_line = (fill * size)[:size]
            runs.check('a strip of %d bytes' % size, HEAD + lines(PATTERN[0], long_line, PATTERN[1], long_line, PATTERN[2]))
            runs.check('a line of %d bytes in the head' % size, HEAD + lines(long_line, PATTERN[0]))
            runs.check('a last line of %d bytes' % size, HEAD + lines(PATTERN[0]) + long_line)
    whole = HEAD + lines(*PATTERN, strip(b'0.5' + b'0' * 4096, b'1'), *PATTERN)
    for size in (1, 2, 3, 7, 64, 1000):
        some = whole if size > 20 else HEAD + lines(*PATTERN)
        runs.stream('pieces of %d bytes' % size, slowly(some, size), ledger(some).splitlines(True))


def main():
    parser = argparse.ArgumentParser(description='Compares a ledger program with the reference.')
    parser.add_argument('--count', type=int, default=0, help='how many random inputs')
    parser.add_argument('--seed', type=int, default=1)
    parser.add_argument('--cases', action='store_true', help='run the cases of crates/ledger_cases/data')
    parser.add_argument('--long', action='store_true', help='run a million strips, and long lines')
    parser.add_argument('--keep', help='where inputs that differ are kept')
    parser.add_argument('command', nargs='+', help='the program, after --')
    options = parser.parse_args()
    sys.setrecursionlimit(20000)
    runs = Runs(options.command, options.keep or os.path.join(tempfile.gettempdir(), 'ledger_differences_%d' % os.getpid()))
    if options.cases:
        run_cases(runs)
    run_random(runs, options.count, options.seed)
    if options.long:
        run_long(runs)
    print('%d inputs, %d differences, exit codes %s' % (runs.count, runs.differing, ', '.join('%d: %d' % pair for pair in sorted(runs.codes.items())) or 'none'))
    sys.exit(1 if runs.differing or not runs.count else 0)


if __name__ == '__main__':
    main()
