#!/usr/bin/env python3
"""The ledger of an input, from the papers alone: read from standard input, written to standard output.

    python3 tests/ledger_reference.py < input

The rules are those of page 01, "What the painter reads", "Sizes", "Refusal numbers" and the sample of
"Checked examples"; heads and features are read as in head_vectors.py, expressions are worked out as in
evaluator_vectors.py, colours as in value_vectors.py. Where page 01 leaves a point open: the first field
is compared whole, so `feature` begins no strip; a text that ends in a line feed has no empty line behind
it, but an empty line among the strips is a strip (9 at 0); a carriage return is a byte like others;
without a strip the whole input is the head, and is checked; the heading is always printed; the strip
1,000,000 gets its refusal, and nothing after it is read.
"""
import functools
import io
import itertools
import sys
from typing import NamedTuple

from evaluator_vectors import DEFINE, STYLE, Case, Rules, tree_of
from head_vectors import COLOR_ROW, COND_ROW, MOST_NUMBER, SHOW_ROW, Feature, Head, Refusal, is_refusal
from value_vectors import byte, color, component

HEADING = b'strip\tshow\tcolour\n'
WHITE = tuple(color())
byte_once = functools.lru_cache(maxsize=4096)(byte)


class Painted(NamedTuple):
    """A strip's answer; without a colour it is None."""
    shows: bool
    colour: tuple


class Ledger:
    """Of the lines of an input, each with its line feed; the last may lack it."""
    HEAD, FEATURE, RULES = Head, Feature, Rules
    HEADING = HEADING
    FIRST = 1
    MOST = MOST_NUMBER

    def __init__(self, lines):
        self.lines = iter(lines)
        self.text = b''
        self.head = None
        self.sets = ()
        self.trees = {}
        self.rules = self.RULES(Case(b'1'))
        # A map repeats its strips' lines often enough to keep the last answers.
        self.answer_once = functools.lru_cache(maxsize=1024)(self.answer)

    def printed(self):
        """Its lines."""
        yield self.HEADING
        self.text, strips = self.parted()
        refusal = self.compiled()
        if refusal:
            yield self.refused_head(refusal)
            return
        yield from self.strips(strips)

    def strips(self, strips):
        for number, line in enumerate(strips, self.FIRST):
            yield self.strip(number, self.without_end(line))
            if number > self.MOST:
                return

    # The parts of the input

    def parted(self):
        """The head, and the lines from the first strip on."""
        head = []
        for line in self.lines:
            if self.is_strip(self.without_end(line)):
                return b''.join(head), itertools.chain([line], self.lines)
            head.append(line)
        return b''.join(head), []

    def is_strip(self, line):
        return line.split(b'\t', 1)[0] == b'feat'

    def without_end(self, line):
        return line.removesuffix(b'\n')

    # The head

    def compiled(self):
        """Its refusal, if it has one."""
        self.head = self.HEAD(self.text)
        style = self.head.answer()
        if isinstance(style, Refusal):
            return style
        self.trees = {part.row: (tree_of(self.text[part.start:part.end]), part.start) for part in style.expressions}
        self.sets = tuple(name.kinds for name in style.properties)
        return None

    def refused_head(self, refusal):
        return b'refused\t%d\t%d\t%d\n' % refusal

    # Strips

    def strip(self, number, line):
        """No number up to the last changes an answer."""
        found = self.answer_once(number if number > self.MOST else self.FIRST, line)
        return self.painted_strip(number, found) if isinstance(found, Painted) else self.refused_strip(number, found)

    def refused_strip(self, number, refusal):
        return b'%d\trefused\t%d\t%d\n' % (number, *refusal)

    def painted_strip(self, number, found):
        return b'%d\t%s\t%s\n' % (number, b'true' if found.shows else b'false', self.colour_word(found.colour))

    def answer(self, number, line):
        """The refusal's number and place, or what is painted."""
        values = self.FEATURE(self.sets, number, line).answer()
        if is_refusal(values):
            return values
        properties = dict(zip(self.head.properties, values, strict=True))
        self.rules.texts = self.text, line
        names = self.names(properties)
        return Painted(self.shows(names), self.colour(names))

    def names(self, properties):
        """An accepted head's defines never fault, so those that are not named may be worked out too."""
        found = {}
        for row, name in enumerate(self.head.defines):
            found[name] = self.value(row, self.rules.named(DEFINE, properties, found))
        return self.rules.named(STYLE, properties, found)

    def value(self, row, names):
        tree, base = self.trees[row]
        return self.rules.value(tree, names, base)

    def shows(self, names):
        """Without `show` a strip shows."""
        return self.value(SHOW_ROW, names).parts[0] if SHOW_ROW in self.trees else True

    def colour(self, names):
        """That of the first true condition, or none; without `color` and `cond` it is white."""
        if COLOR_ROW in self.trees:
            return self.value(COLOR_ROW, names).parts
        if COND_ROW not in self.trees:
            return WHITE
        row = self.true_row(names)
        return None if row is None else self.value(row + 1, names).parts

    def true_row(self, names):
        return next((row for row in self.condition_rows() if self.value(row, names).parts[0]), None)

    def condition_rows(self):
        return [row for row in self.trees if row >= COND_ROW and row % 2 == COND_ROW % 2]

    def colour_word(self, colour):
        return b'undefined' if colour is None else b'#%02X%02X%02X%02X' % tuple(map(self.byte, colour))

    def byte(self, x):
        return byte_once(component(x))


def ledger(data, by=Ledger):
    """What is printed for the whole input."""
    return b''.join(by(io.BytesIO(data)).printed())


def main():
    sys.setrecursionlimit(20000)
    for line in Ledger(sys.stdin.buffer).printed():
        sys.stdout.buffer.write(line)


if __name__ == '__main__':
    main()
