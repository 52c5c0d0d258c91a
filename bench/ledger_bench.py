#!/usr/bin/env python3
"""How fast a ledger program is and how much memory and stack it takes, as tables for a document.

    python3 bench/ledger_bench.py -- examples/ledger
    python3 bench/ledger_bench.py --strips 1000,10000 --heads 100,1000 --runs 1 -- examples/ledger

The blocks are made from a fixed seed, so that two runs, or two programs, have the same work. Each figure
is the best of `--runs` runs, from the start of the program to its end, its input and its output being
files. Memory is the most that was resident at one time (VmHWM of /proc), read in a run of its own, when
the program has been given all its input but not the end of it, and on until it ends; what the system
counts for an ended program would have this script's own memory in it. Stack is the smallest limit
(`ulimit -s`) under which the program still prints the same ledger, in steps of 4 KB, and beside it what
the stack had grown to (VmStk); below some size no program starts at all, which the first line of the
table says. Needs Linux.
"""
import argparse
import hashlib
import os
import random
import resource
import shutil
import subprocess
import sys
import tempfile
import time

SEED = 1
STRIPS = [1000, 10000, 100000, 999999]
HEADS = [147, 300, 1000, 3000, 10000, 32768]
HEAD_STRIPS = 100000
STACK_STRIPS = 20
SMALLEST, LARGEST = 4, 8192
MOST_PAIRS, PAIR_BYTES = 16, 2038

PROPERTIES = ['Line\tNumber\t-', 'Heading\tvec2\t-', 'SideLap\tNumber\ta', 'MinLap\tNumber\t-', 'Cloud\tNumber\t-', 'Camera\tString\tan', 'Reflown\tBoolean\t-']
SMALL_STYLE = [
    'define\tGood\t${MinLap} >= 0.2 && ${Cloud} < 0.1',
    'show\t!${Reflown}',
    "cond\t${SideLap} === undefined\tcolor('red')",
    'cond\t${MinLap} < 0.2\trgb(255, 200 * ${MinLap} / 0.2, 0)',
    "cond\t${Good}\tmix(color('lime'), color('white'), ${Cloud})",
    "cond\ttrue\tcolor('#808080', 0.5)",
]


# ---- blocks

def properties():
    return ''.join('prop\t%s\n' % text for text in PROPERTIES)


def survey_head():
    return properties() + ''.join(text + '\n' for text in SMALL_STYLE)


def sized_head(size):
    """So many bytes, if it has at least one condition: conditions that are all false, each with a define of its own, so that each strip has them all worked out."""
    front = properties()
    room = size - len(front)
    count = min(MOST_PAIRS, -(-room // PAIR_BYTES))
    rows = [pair_of_lines(i, room // count) for i in range(count)]
    head = front + ''.join(define for define, _ in rows) + ''.join(cond for _, cond in rows)
    return head[:-1] + ' ' * (size - len(head)) + '\n' if rows else head


def pair_of_lines(i, size):
    """A define, and a condition that names it."""
    define = 'define\tD%d\t%s\n' % (i, chain('${MinLap} * 3 + ${Cloud} / 7 > 999', size // 2 - 12))
    return define, 'cond\t${D%d} || %s\tvec4(0.5)\n' % (i, chain('${Line} %% %d === 1000' % (97 + i), size // 2 - 28))


def chain(part, size):
    """As many parts as fit, at least one."""
    return ' || '.join([part] * max(1, (size + 4) // (len(part) + 4)))


def strip_line(source, i):
    """A strip as a survey has it; some lack their side lap or their camera."""
    lap = '' if source.getrandbits(6) == 0 else '0.%02d' % (10 + source.getrandbits(8) % 40)
    camera = ('', 'null', '=UCE-M3-%d' % (source.getrandbits(8) % 4), '=DMC-III')[source.getrandbits(8) % 4]
    turn = source.getrandbits(1) * 2 - 1
    return 'feat\t%d\t%s %s\t%s\t0.%03d\t0.%02d\t%s\t%s\n' % (
        1 + i % 9999, '%d.5' % turn, '-0.25', lap, 100 + source.getrandbits(10) % 400, source.getrandbits(8) % 30, camera, 'true' if source.getrandbits(5) == 0 else 'false')


def write_block(path, head, strips):
    source = random.Random(SEED)
    with open(path, 'w') as out:
        out.write(head)
        for i in range(strips):
            out.write(strip_line(source, i))


# ---- runs

def run_once(command, block, printed, stack=None):
    """Seconds and the exit code; None if it does not start."""
    limit = None if stack is None else lambda: resource.setrlimit(resource.RLIMIT_STACK, (stack * 1024, stack * 1024))
    with open(block, 'rb') as given, open(printed, 'wb') as out:
        start = time.perf_counter()
        try:
            code = subprocess.run(command, stdin=given, stdout=out, stderr=subprocess.DEVNULL, preexec_fn=limit).returncode
        except (OSError, subprocess.SubprocessError):
            return None
        return time.perf_counter() - start, code


def status_of(pid):
    """The fields of /proc that are in KB; none of an ended program."""
    try:
        with open('/proc/%d/status' % pid) as file:
            return {line.split(':')[0]: int(line.split()[1]) for line in file if line.endswith(' kB\n')}
    except (FileNotFoundError, ProcessLookupError):
        return {}


def most_of(command, block, printed, wanted):
    """The most of each field that is seen in one run."""
    most = dict.fromkeys(wanted, 0)
    with open(block, 'rb') as given, open(printed, 'wb') as out, subprocess.Popen(command, stdin=subprocess.PIPE, stdout=out, stderr=subprocess.DEVNULL) as child:
        shutil.copyfileobj(given, child.stdin)
        child.stdin.flush()
        time.sleep(0.05)
        is_open = True
        while child.poll() is None:
            found = status_of(child.pid)
            most = {name: max(most[name], found.get(name, 0)) for name in wanted}
            if is_open:
                child.stdin.close()
            is_open = False
    return most


def digest(path):
    with open(path, 'rb') as file:
        return hashlib.sha256(file.read()).hexdigest()


def line_count(path):
    with open(path, 'rb') as file:
        return sum(part.count(b'\n') for part in iter(lambda: file.read(1 << 20), b''))


class Bench:
    def __init__(self, command, runs, place):
        self.command = command
        self.runs = runs
        self.block = os.path.join(place, 'block')
        self.printed = os.path.join(place, 'ledger')

    def best(self, head, strips):
        """The fastest run's seconds, and the most memory."""
        write_block(self.block, head, strips)
        found = [run_once(self.command, self.block, self.printed) for _ in range(self.runs)]
        if None in found or any(code != 0 for _, code in found) or line_count(self.printed) != strips + 1:
            sys.exit('the program did not print %d strips; exit codes %s' % (strips, [run and run[1] for run in found]))
        return min(seconds for seconds, _ in found), most_of(self.command, self.block, self.printed, ['VmHWM'])['VmHWM']

    def stack(self, head):
        """The smallest limit, in KB, under which the ledger is the same, and what the stack had grown to."""
        write_block(self.block, head, STACK_STRIPS)
        run_once(self.command, self.block, self.printed)
        wanted = digest(self.printed)
        least = smallest(lambda size: self.runs_under(size, wanted))
        return shown_size(least), shown_size(most_of(self.command, self.block, self.printed, ['VmStk'])['VmStk'])

    def runs_under(self, size, wanted):
        ran = run_once(self.command, self.block, self.printed, size)
        return ran is not None and ran[1] == 0 and digest(self.printed) == wanted

    def start_stack(self):
        """The smallest limit under which a program starts that does nothing."""
        return shown_size(smallest(lambda size: (run_once(['/bin/true'], self.block, self.printed, size) or (0, None))[1] == 0))


def shown_size(size):
    return '-' if size is None else '{:,}'.format(size)


def smallest(works, low=SMALLEST, high=LARGEST):
    """By halving; more stack never does harm."""
    if not works(high):
        return None
    while low < high:
        middle = (low + high) // 2 // 4 * 4
        if works(middle):
            high = middle
        else:
            low = middle + 4
    return high


# ---- tables

def print_table(title, columns, rows):
    print('\n%s\n\n| %s |\n|%s' % (title, ' | '.join(columns), '---|' * len(columns)))
    for fields in rows:
        print('| %s |' % ' | '.join(fields), flush=True)


def strip_rows(bench, counts):
    for count in counts:
        seconds, memory = bench.best(survey_head(), count)
        yield '{:,}'.format(count), '%.3f' % seconds, '{:,.0f}'.format(count / seconds), '%.2f' % (seconds / count * 1e6), '{:,}'.format(memory)


def head_rows(bench, sizes, strips):
    for size in sizes:
        head = sized_head(size)
        seconds, memory = bench.best(head, strips)
        yield '{:,}'.format(len(head)), '%d' % head.count('\n'), '%.3f' % seconds, '{:,.0f}'.format(strips / seconds), '%.2f' % (seconds / strips * 1e6), '{:,}'.format(memory)


def stack_rows(bench, sizes):
    yield 'a program that does nothing (`/bin/true`)', bench.start_stack(), '-'
    yield 'ledger, the block of the first table', *bench.stack(survey_head())
    yield 'ledger, a head of {:,} bytes'.format(sizes[-1]), *bench.stack(sized_head(sizes[-1]))
    yield 'ledger, expressions of height 64', *bench.stack(tall_head())
    yield 'ledger, an expression that takes the parser deepest, refused', *bench.stack('show\t%s\n' % ('!' * 992 + '(' * 32))


def tall_head():
    """Deep in each way that a tree can be: signs, sums, conditionals and brackets."""
    return properties() + 'define\ta\t%s${Line}\ndefine\tb\t${Line}%s\ndefine\tc\t%s2\ndefine\td\t%s1%s\nshow\t${a} < ${b} || ${c} > ${d}\n' % (
        '-+' * 31, ' + ${Line}' * 62, 'false ? 1 : ' * 62, '(1 - ' * 32, ')' * 32)


def numbers(text):
    return [int(part) for part in text.split(',')]


def main():
    parser = argparse.ArgumentParser(description='Measures a ledger program.')
    parser.add_argument('--strips', type=numbers, default=STRIPS, help='counts of strips, with commas between')
    parser.add_argument('--heads', type=numbers, default=HEADS, help='sizes of heads in bytes')
    parser.add_argument('--head-strips', type=int, default=HEAD_STRIPS, help='how many strips under each head')
    parser.add_argument('--runs', type=int, default=3)
    parser.add_argument('--no-stack', action='store_true', help='leave the stack out')
    parser.add_argument('command', nargs='+', help='the program, after --')
    options = parser.parse_args()
    with tempfile.TemporaryDirectory() as place:
        bench = Bench(options.command, options.runs, place)
        print_table('Strips, under a head of %d bytes' % len(survey_head()), ['strips', 'seconds', 'strips per second', 'microseconds per strip', 'peak memory, KB'], strip_rows(bench, options.strips))
        print_table('Heads, with {:,} strips'.format(options.head_strips), ['head, bytes', 'lines', 'seconds', 'strips per second', 'microseconds per strip', 'peak memory, KB'],
                    head_rows(bench, options.heads, options.head_strips))
        if not options.no_stack:
            print_table('Stack', ['what', 'least limit, KB', 'grown to, KB'], stack_rows(bench, options.heads))


if __name__ == '__main__':
    main()
