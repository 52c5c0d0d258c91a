#!/usr/bin/env python3
"""Runs the examples of docs/MANUAL.md and compares what is printed with what the manual says.

    python3 tests/manual_examples.py
    python3 tests/manual_examples.py -- examples/ledger

Without a program they are run by ledger_reference.py. The manual has examples of four forms: an input in
one block and its whole ledger in the next; a line or more behind the manual's declarations, with `⇒` and
what is printed below the heading; a command of the shell, with `⇒` and the last line that is printed; and
expressions that are true. A tab is written `→`, the end of a line `⏎`, a space `␠`, a carriage return `␍`.
The exit code is 1 if anything differs.
"""
import argparse
import os
import re
import shlex
import subprocess
import sys

HERE = os.path.dirname(os.path.abspath(__file__))
MANUAL = os.path.join(HERE, '..', 'docs', 'MANUAL.md')
REFERENCE = [sys.executable, os.path.join(HERE, 'ledger_reference.py')]
SIGNS = {'→': '\t', '␠': ' ', '␍': '\r'}
ACCEPTED = 'accepted'


def plain(text):
    """Without its signs."""
    return ''.join(SIGNS.get(c, c) for c in text)


def lines_of(text):
    return [plain(part.strip(' ')) for part in text.split('⏎')]


class Runs:
    """Of one program."""

    def __init__(self, command):
        self.command = command
        self.count = 0
        self.differing = 0

    def printed(self, text):
        return subprocess.run(self.command, input=text.encode(), stdout=subprocess.PIPE, check=True).stdout.decode()

    def compare(self, example, wanted, got):
        self.count += 1
        if got != wanted:
            self.differing += 1
            print('%s\n  expected %r\n  got      %r' % (example, wanted, got))

    def whole(self, text, wanted):
        self.compare(text, plain(wanted), self.printed(plain(text)))

    def behind(self, declarations, left, right):
        """A colour alone is that of a strip without fields, so no declarations stand before it."""
        is_colour = right.startswith('#')
        front = '' if is_colour else declarations
        behind = lines_of(left) + ['feat'] * is_colour
        body = self.printed(front + '\n'.join(behind) + '\n').split('\n')[1:-1]
        wanted = [] if right == ACCEPTED else ['1\ttrue\t' + right] if is_colour else lines_of(right)
        self.compare(left, wanted, body)

    def shell(self, left, right):
        script = 'ledger() { %s; }\n%s' % (shlex.join(self.command), left)
        found = subprocess.run(['sh', '-c', script], stdout=subprocess.PIPE).stdout.decode()
        self.compare(left, plain(right), found.rstrip('\n').split('\n')[-1])

    def true(self, expression):
        self.compare(expression, '1\ttrue\t#FFFFFFFF', self.printed('show\t%s\nfeat\n' % expression).split('\n')[1])


def is_declarations(block):
    return all(line.startswith('prop→') for line in block.splitlines())


def run_all(runs, blocks):
    declarations = plain(next(block for _, block in blocks if is_declarations(block)))
    for (language, block), (_, after) in zip(blocks, blocks[1:] + [('', '')]):
        if after.startswith('strip→'):
            runs.whole(block, after)
        if language == 'js':
            for line in block.splitlines():
                runs.true(line)
        for line in block.splitlines():
            left, sign, right = (part.strip(' ') for part in line.partition('⇒'))
            if sign and language == 'sh':
                runs.shell(left, right)
            elif sign:
                runs.behind(declarations, left, right)


def main():
    parser = argparse.ArgumentParser(description="Runs the manual's examples.")
    parser.add_argument('command', nargs='*', help='a program, after --')
    runs = Runs(parser.parse_args().command or REFERENCE)
    with open(MANUAL, encoding='utf-8') as file:
        run_all(runs, re.findall(r'^```(\w*)\n(.*?)^```$', file.read(), re.S | re.M))
    print('%d examples, %d differences' % (runs.count, runs.differing))
    sys.exit(1 if runs.differing or not runs.count else 0)


if __name__ == '__main__':
    main()
