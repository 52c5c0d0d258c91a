#!/usr/bin/env python3
"""Cases for the crates text, feature and style, written to crates/head_cases/data from the papers alone,
and what the program head_cases has to print of them.

The rules are those of page 01, "What the painter reads", "Sizes" and the refusals 1, 8, 9 and 10; how an
expression is read is in syntax_vectors.py, its kinds and 7 are in evaluator_vectors.py, and numbers in
number_vectors.py, all of which were written from the papers too. Where page 01 leaves a point open: the
head's size counts its line feeds, a line's size and places don't; a text that ends in a line feed has no
empty line behind it; a carriage return is a byte like others; all that is wrong with a line's word comes
before its count; a repeated name is a wrong name; of `color` and `cond` the later line is refused.

What the papers say of single heads and features (STATED, STATED_FEATURES) has to come out, or the script
stops. Tables of wrong readings (WRONG, WRONG_FEATURES) have to be found out by the cases. Running it
again writes the same bytes.

All numbers are hex digits, places from 0, lines from 1; texts stand byte for byte. A file of heads has
for each head a line of 38 bytes, the head and a line feed, a line of 16 bytes for each name, and for
each expression a line of 22 bytes, its tree and a line feed. A refused head has neither.
    rrrr hhhh n llll pppp ss dd cc s c ee
How many slots of room there are; the head's length; the number, line and place of its refusal, or 0; how
many properties, defines and conditions it has; 1 if it has a `show` or a `color`; how many expressions.
    rr ssss eeee kk
A name's row, 00 to 1f for properties and 20 to 2f for defines; where it begins in the head and where it
ends; the set of its kinds.
    rr ffff tttt ppp llll
An expression's row, that of its define from 00 on, 10 for `show`, 11 for `color`, 12 for the first
condition, 13 for its colour, and so on; where it begins in the head and where it ends; the place of its
tree's root in the expression; the length of the tree, printed as in syntax_vectors.py but for variables:
$ and two digits, the row of what the name stands for, or 30 for an undeclared name.

A file of features (FEATURE_FILES) has for each a line of 38 bytes, a head and a line feed, the feature
and a line feed, and a line of 24 bytes for each part of its values. A refused one has none.
    hhhh iiiiiiiiiiiiiiii llll n ppppp vv
The head's length; the number that the feature is given; its length; the number and place of its refusal,
or 0; how many parts there are.
    rr k i dddddddddddddddd
A property's row, the kind of its value, the index of the part, and the part: a double's pattern; for a
string eight digits each of its start and its end in the feature; for a Boolean 1 or 0; else 0.

A kind is 0 Undefined, 1 Null, 2 Boolean, 3 Number, 4 String, 5 vec2, 6 vec3, 7 vec4; kind k is in a set
if bit k is. A root's place is that of its own token: a leaf's, an operator's, `?`, the called word, or
the `.` or `[` of a pick.
"""
import functools
import itertools
import random
import sys
from typing import NamedTuple

import evaluator_vectors
import number_vectors
from case_files import write
from evaluator_vectors import DEFINE, ENDS, FLAGS, STYLE, TO_ANY, TO_BOOLEAN, TO_VEC4, TYPES, Case, Placed, Property, Rules, Writer, declared_kinds, random_properties, tree_of
from lexer_vectors import EXAMPLES, LETTERS, NAME_BYTES, WORDS, distinct
from syntax_vectors import FAULTS, judged, unary_chain
from value_vectors import BOOLEAN, KINDS, NULL, NUMBER, SIZE, STRING, UNDEFINED, VEC2, VEC3, VEC4, VECTORS, Value, bits, chosen, mask_of, num, truth, vector
from value_vectors import number as double

SEED = 1
ROOM = 32768
MOST_HEAD = 32768
MOST_LINE = 4096
MOST_NUMBER = 999999
MOST_STRING = 255
MOST_NAME = 64
MOST_PROPERTIES = 32
UNDECLARED = 48
SHOW_ROW, COLOR_ROW, COND_ROW = 16, 17, 18
# What the program has room for: bytes of a head and slots, bytes of any other text.
LONGEST_HEAD = 33000
LONGEST = 8400
TYPE_WORDS = {word: kind for kind, word in TYPES.items()}
FLAG_WORDS = [flags.encode() for flags in FLAGS]


# ---- a head, read by the paper

class Refused(Exception):
    """With a number, at a place of the line."""


class Refusal(NamedTuple):
    number: int
    line: int
    place: int


class Field(NamedTuple):
    at: int
    text: bytes


class Line(NamedTuple):
    """Where it begins in the head."""
    at: int
    text: bytes


class Name(NamedTuple):
    start: int
    end: int
    kinds: int


class Expression(NamedTuple):
    row: int
    start: int
    end: int
    root: int
    tree: bytes


class Style(NamedTuple):
    """What an accepted head says, in the order of its lines."""
    properties: tuple
    defines: tuple
    expressions: tuple


def fields_of(text):
    """Parted by one tab."""
    found, at = [], 0
    for part in text.split(b'\t'):
        found.append(Field(at, part))
        at += len(part) + 1
    return found


class Numbered(Placed):
    """A variable is printed as the row of what it stands for."""

    def __init__(self, text, rows):
        super().__init__(text)
        self.rows = rows

    def shown(self, node):
        if node.form == 'leaf' and node.word[:1] == b'$':
            return b'$%02x' % self.rows.get(node.word[2:-1], UNDECLARED)
        return super().shown(node)


judged_once = functools.lru_cache(maxsize=None)(judged)
KIND_RULES = Rules(Case(b'1'))


class Head:
    """One head and some slots of room."""
    ROOM = ROOM
    MOST_HEAD = MOST_HEAD
    MOST_NAME = MOST_NAME
    MOST = {b'prop': 32, b'define': 16, b'show': 1, b'color': 1, b'cond': 16}
    STAGES = {b'prop': 0, b'define': 1, b'show': 2, b'color': 2, b'cond': 2}
    COUNTS = {b'prop': 4, b'define': 3, b'show': 2, b'color': 2, b'cond': 3}
    ENDS = {SHOW_ROW: TO_BOOLEAN, COLOR_ROW: TO_VEC4}
    TYPES = TYPE_WORDS
    FLAGS = FLAG_WORDS
    FIRST_LINE = 1

    def __init__(self, head, room=ROOM):
        self.head = head
        self.room = room
        self.words = []
        self.properties = {}
        self.defines = {}
        self.expressions = []
        self.number = 0

    def answer(self):
        """The refusal, or the style."""
        try:
            self.whole()
        except Refused as refusal:
            number, place = refusal.args
            return Refusal(number, self.number, place)
        return Style(tuple(self.properties.values()), tuple(self.defines.values()), tuple(self.expressions))

    def whole(self):
        self.sizes()
        for number, line in enumerate(self.lines(), self.FIRST_LINE):
            self.number = number
            self.line(line)

    def sizes(self):
        """The room before the head."""
        if self.room < self.ROOM:
            raise Refused(10, 0)
        if self.size() > self.MOST_HEAD:
            raise Refused(1, self.MOST_HEAD)

    def size(self):
        """Every line feed counts."""
        return len(self.head)

    def lines(self):
        """Each ended by a line feed; the last may lack it."""
        found, at = [], 0
        for text in self.head.split(b'\n'):
            found.append(Line(at, text))
            at += len(text) + 1
        return found if found[-1].text else found[:-1]

    def line(self, line):
        fields = self.fields(line.text)
        word = fields[0].text
        self.check_word(word)
        self.check_count(line, fields)
        if word == b'prop':
            self.property(line, fields)
        elif word == b'define':
            self.define(line, fields)
        else:
            self.style(line, fields)
        self.words.append(word)

    def fields(self, text):
        return fields_of(text)

    # 8, in its order

    def check_word(self, word):
        if not self.is_known(word) or self.is_out_of_order(word) or self.is_one_too_many(word) or self.is_beside(word):
            raise Refused(8, 0)

    def is_known(self, word):
        return word in self.COUNTS

    def is_out_of_order(self, word):
        """All `prop` lines come first, then all `define` lines, then the others."""
        return any(self.STAGES[earlier] > self.STAGES[word] for earlier in self.words)

    def is_one_too_many(self, word):
        return self.words.count(word) == self.MOST[word]

    def is_beside(self, word):
        return (word == b'color' and b'cond' in self.words) or (word == b'cond' and b'color' in self.words)

    def check_count(self, line, fields):
        if len(fields) != self.COUNTS[fields[0].text]:
            raise Refused(8, self.end(line))

    def end(self, line):
        return len(line.text)

    def need(self, field, allowed):
        if not allowed:
            raise Refused(8, self.field_place(field))

    def field_place(self, field):
        return field.at

    def is_name(self, name):
        return 1 <= len(name) <= self.MOST_NAME and all(byte in NAME_BYTES for byte in name)

    def is_free(self, name, names):
        """Names of properties are unique, as are names of defines."""
        return name not in names

    def property(self, line, fields):
        _, name, kind, flags = fields
        self.need(name, self.is_name(name.text) and self.is_free(name.text, self.properties))
        self.need(kind, kind.text in self.TYPES)
        self.need(flags, flags.text in self.FLAGS)
        kinds = self.property_kinds(Property(name.text, self.TYPES[kind.text], flags.text.decode()))
        self.properties[name.text] = Name(*self.span(line, name), kinds)

    def property_kinds(self, declared):
        return declared_kinds(declared)

    def define(self, line, fields):
        _, name, text = fields
        self.need(name, self.is_name(name.text) and self.is_free(name.text, self.defines))
        found = self.expression(line, text, len(self.defines), DEFINE, TO_ANY)
        self.defines[name.text] = Name(*self.span(line, name), found)

    def style(self, line, fields):
        if fields[0].text == b'cond':
            row = COND_ROW + 2 * self.words.count(b'cond')
            self.condition(line, fields, row)
        else:
            row = SHOW_ROW if fields[0].text == b'show' else COLOR_ROW
            self.expression(line, fields[1], row, STYLE, self.ENDS[row])

    def condition(self, line, fields, row):
        """Its expressions left to right."""
        self.expression(line, fields[1], row, STYLE, TO_BOOLEAN)
        self.expression(line, fields[2], row + 1, STYLE, TO_VEC4)

    def span(self, line, field):
        start = line.at + field.at
        return start, start + len(field.text)

    # The expressions, each by 1 to 7

    def expression(self, line, field, row, scope, wanted):
        """The set of its kinds."""
        text = field.text
        number, place, _ = self.judged(text)
        if number:
            raise Refused(number, self.expression_place(field, place))
        found = self.kinds(field, scope, wanted)
        self.expressions.append(Expression(row, *self.span(line, field), tree_of(text).at, self.tree(text, scope)))
        return found

    def judged(self, text):
        return judged_once(text)

    def expression_place(self, field, place):
        """It counts in the expression."""
        return place

    def kinds(self, field, scope, wanted):
        try:
            found = KIND_RULES.kinds(tree_of(field.text), self.named(scope))
        except evaluator_vectors.Refused as refusal:
            raise Refused(7, self.expression_place(field, refusal.args[0]))
        if not self.is_wanted(found, wanted):
            raise Refused(7, self.expression_place(field, len(field.text)))
        return found

    def is_wanted(self, found, wanted):
        return found & ~ENDS[wanted] == 0

    def named(self, scope):
        return {name: found.kinds for name, found in self.visible(scope, self.properties, self.defines).items()}

    def visible(self, scope, properties, defines):
        """A define hides a property of its name; inside a define every name is a property."""
        return properties if scope == DEFINE else properties | defines

    def tree(self, text, scope):
        numbers = {'p': dict(zip(self.properties, range(MOST_PROPERTIES))), 'd': dict(zip(self.defines, range(MOST_PROPERTIES, UNDECLARED)))}
        reading = Numbered(text, self.visible(scope, numbers['p'], numbers['d']))
        reading.grammar()
        return reading.shown(reading.tree)


# ---- a feature, read by the paper

class Feature:
    """One line under the sets of the properties, with the number that it is given."""
    MOST_LINE = MOST_LINE
    MOST_NUMBER = MOST_NUMBER
    MOST_STRING = MOST_STRING

    def __init__(self, sets, number, line):
        self.sets = sets
        self.number = number
        self.line = line

    def answer(self):
        """The refusal's number and place, or the values."""
        try:
            self.sizes()
            fields = self.fields()
            self.check_word(fields[0].text)
            return self.values(fields[1:])
        except Refused as refusal:
            return refusal.args

    def sizes(self):
        if len(self.line) > self.MOST_LINE:
            raise Refused(1, MOST_LINE)
        if self.number > self.MOST_NUMBER:
            raise Refused(1, MOST_NUMBER)

    def fields(self):
        return fields_of(self.line)

    def check_word(self, word):
        if word != b'feat':
            raise Refused(9, 0)

    def values(self, fields):
        """Count first, then fields from the left."""
        self.check_count(fields)
        return tuple(self.checked(field, kinds) for field, kinds in zip(fields, self.sets))

    def check_count(self, fields):
        if len(fields) != len(self.sets):
            raise Refused(9, self.end())

    def end(self):
        return len(self.line)

    def checked(self, field, kinds):
        found = self.value(field, kinds)
        if found is None:
            raise Refused(9, self.field_place(field))
        return found

    def field_place(self, field):
        return field.at

    def value(self, field, kinds):
        """None for a field that does not conform."""
        if field.text == b'':
            return Value(UNDEFINED) if kinds >> UNDEFINED & 1 else None
        if field.text == b'null':
            return Value(NULL) if kinds >> NULL & 1 else None
        kind = kinds.bit_length() - 1
        if kind == BOOLEAN:
            return self.boolean(field.text)
        if kind == STRING:
            return self.string(field)
        return self.numbers(field.text, kind)

    def boolean(self, text):
        return truth(text == b'true') if text in (b'true', b'false') else None

    def string(self, field):
        """As `=` and then 0 to 255 bytes."""
        if field.text[:1] != b'=' or len(field.text) - 1 > self.MOST_STRING:
            return None
        return Value(STRING, (False, field.at + 1, field.at + len(field.text)))

    def numbers(self, text, kind):
        """Parted by single spaces."""
        found = [self.one_number(part) for part in self.parts(text)]
        if len(found) != SIZE[kind] or None in found:
            return None
        return Value(kind, tuple(found))

    def parts(self, text):
        return text.split(b' ')

    def one_number(self, text):
        """A number with an optional `-`."""
        is_negative = text[:1] == b'-'
        return self.unsigned(text[1:] if is_negative else text, is_negative)

    def unsigned(self, text, is_negative):
        form, end, digits, places = number_vectors.read(text, 0)
        if form != 1 or end != len(text):
            return None
        return double(number_vectors.value(is_negative, digits, places))


# ---- cases

class HeadCase(NamedTuple):
    head: bytes
    room: int = ROOM


class FeatureCase(NamedTuple):
    """The head is one that is accepted."""
    head: bytes
    line: bytes
    number: int = 1


@functools.lru_cache(maxsize=None)
def sets_of(head):
    style = Head(head).answer()
    assert isinstance(style, Style), (head, style)
    return tuple(name.kinds for name in style.properties)


def row(*fields):
    return b'\t'.join(fields)


def lines(*rows):
    """Each ended by a line feed."""
    return b''.join(part + b'\n' for part in rows)


def prop(name=b'A', kind=b'Number', flags=b'-'):
    return row(b'prop', name, kind, flags)


def define(name, text=b'1'):
    return row(b'define', name, text)


def show(text=b'true'):
    return row(b'show', text)


def color(text=b'color()'):
    return row(b'color', text)


def cond(test=b'true', colour=b'color()'):
    return row(b'cond', test, colour)


OPTIONAL = prop(b'Lap', b'Number', b'a')
SAMPLE_HEAD = lines(prop(b'Line'), OPTIONAL, cond(b'${Line} > 39', b"color('red')"), cond(b'true', b"color('#0F0', 0.5)"))
COLUMNS = [prop(b'p%d' % i) for i in range(40)]
DEFINES = [define(b'd%d' % i) for i in range(20)]


# ---- what the papers say of single heads and features

def under_optional(*rows):
    return lines(OPTIONAL, *rows)


# A head with its refusal, or with how many properties, defines and expressions it has.
STATED = [
    # page 01
    (SAMPLE_HEAD, (2, 0, 4)), (under_optional(show(b'${Lap} === undefined')), (1, 0, 1)), (under_optional(show(b'${Lap} < 0.2')), (7, 2, 7)), (under_optional(show(b'true || ${Lap} < 0.2')), (7, 2, 15)),
    (under_optional(define(b'd', b'vec3(1.0) / 3')), (1, 1, 1)), (under_optional(define(b'd', b'3 / vec3(1.0)')), (7, 2, 2)), (under_optional(define(b'd', b'vec2(1, 2).z')), (7, 2, 10)), (under_optional(define(b'd', b'')), (4, 2, 0)),
    (under_optional(define(b'd', b'1 --1')), (2, 2, 2)), (under_optional(color(b"color('red') * vec4(0.5)")), (1, 0, 1)), (b'', (0, 0, 0)),
    (lines(*COLUMNS[:32]), (32, 0, 0)), (lines(*COLUMNS[:33]), (8, 33, 0)), (lines(*DEFINES[:16]), (0, 16, 16)), (lines(*DEFINES[:17]), (8, 17, 0)),
    (lines(*[cond()] * 16), (0, 0, 32)), (lines(*[cond()] * 17), (8, 17, 0)), (lines(show(), show()), (8, 2, 0)), (lines(color(), color()), (8, 2, 0)),
    (lines(color(), cond()), (8, 2, 0)), (lines(cond(), color()), (8, 2, 0)), (lines(show(), prop()), (8, 2, 0)), (lines(define(b'd'), prop()), (8, 2, 0)), (lines(show(), define(b'd')), (8, 2, 0)),
    (lines(row(b'prop', b'A', b'Number')), (8, 1, 13)), (lines(prop(b'A b')), (8, 1, 5)), (lines(prop(b'A', b'Int')), (8, 1, 7)), (lines(prop(b'A', b'Number', b'x')), (8, 1, 14)),
    (lines(prop(b'a' * 64)), (1, 0, 0)), (lines(prop(b'a' * 65)), (8, 1, 5)), (lines(prop(), prop()), (8, 2, 5)), (lines(define(b'd'), define(b'd')), (8, 2, 7)),
    (under_optional(show(b'1' + b' ' * 1024)), (1, 2, 1024)), (under_optional(show(b'1' + b' ' * 1023)), (7, 2, 1024)), (under_optional(show(b'(' * 33)), (3, 2, 32)), (under_optional(show(b'!' + unary_chain(64))), (5, 2, 0)),
    (under_optional(color(b"color('rad')")), (6, 2, 6)),
    (under_optional(cond(b'1', b'1')), (7, 2, 1)), (under_optional(cond(b'true', b'1')), (7, 2, 1)),
    (under_optional(cond(b'true', b'vec3(1)')), (7, 2, 7)), (under_optional(define(b'Lap', b'1'), show(b'${Lap} < 0.2')), (1, 1, 2)), (under_optional(define(b'Lap', b'${Lap} < 1')), (7, 2, 7)),
    (under_optional(define(b'd', b'1'), define(b'e', b'${d} + 1')), (7, 3, 5)), (under_optional(define(b'd', b'1'), define(b'e', b'${d} === undefined'), show(b'${e}')), (1, 2, 3)), (under_optional(show(b'${lap} < 1')), (7, 2, 7)),
    (under_optional(define(b'd', b'true ? 1 : null')), (1, 1, 1)),
    # the points that page 01 leaves open
    (b'\n', (8, 1, 0)), (OPTIONAL + b'\n\n', (8, 2, 0)), (OPTIONAL, (1, 0, 0)), (OPTIONAL + b'\n', (1, 0, 0)), (b'\n' + OPTIONAL, (8, 1, 0)), (OPTIONAL + b'\r\n', (8, 1, 16)), (under_optional(show(b'true\r')), (2, 2, 4)),
    (lines(b'feat'), (8, 1, 0)),
    (under_optional(row(b'feat', b'1')), (8, 2, 0)), (under_optional(b'feature'), (8, 2, 0)), (lines(prop(b'A', b'Number', b'na')), (8, 1, 14)), (lines(prop(b'A', b'Number', b'')), (8, 1, 14)),
    (lines(prop(b'9')), (1, 0, 0)),
    (lines(prop(b'true')), (1, 0, 0)), (lines(prop(b'')), (8, 1, 5)), (lines(prop(b'\xe9')), (8, 1, 5)), (lines(prop(), define(b'A')), (1, 1, 1)), (lines(define(b'd', b'')), (4, 1, 0)),
    (lines(row(b'define', b'd')), (8, 1, 8)), (lines(cond(), show()), (0, 0, 3)), (lines(color(), show()), (0, 0, 2)), (lines(row(b'show', b'true', b'')), (8, 1, 10)), (lines(b'show'), (8, 1, 4)),
    (lines(show(b'   ')), (4, 1, 3)), (lines(show(b'1   ')), (7, 1, 4)), (lines(*COLUMNS[:32], row(b'prop')), (8, 33, 0)), (lines(color(), row(b'cond')), (8, 2, 0)),
]

FIVE = lines(prop(b'b', b'Boolean'), prop(b'n'), prop(b's', b'String'), prop(b'v', b'vec2'), prop(b'w', b'vec4', b'an'))


def typed(kind, flags=b'-'):
    return lines(prop(b'A', kind, flags))


def string(start, end):
    return Value(STRING, (False, start, end))


ABSENT, NONE = Value(UNDEFINED), Value(NULL)

# A head, a number and a line, with the refusal's number and place or with the values.
STATED_FEATURES = [
    # page 01
    (SAMPLE_HEAD, 1, b'feat\t39\t0.25', [num(39), num(0.25)]), (SAMPLE_HEAD, 2, b'feat\t40\t', [num(40), ABSENT]), (SAMPLE_HEAD, 3, b'feat\tx\t0.3', (9, 5)),
    (FIVE, 1, b'feat\ttrue\t-0\t=abc\t1 -2.5\t0 0 0 1', [truth(True), num(-0.0), string(14, 17), vector(1, -2.5), vector(0, 0, 0, 1)]),
    (FIVE, 1, b'feat\tfalse\t0.1\t=\t0 0\tnull', [truth(False), num(0.1), string(16, 16), vector(0, 0), NONE]),
    (FIVE, 1, b'feat\ttrue\t1\t=\t0 0\t', [truth(True), num(1), string(13, 13), vector(0, 0), ABSENT]),
    (FIVE, 1, b'feat\ttrue\t1\t=\t0 0', (9, 17)), (FIVE, 1, b'feat\ttrue\t1\t=\t0 0\t\t', (9, 19)), (FIVE, 1, b'Feat\ttrue', (9, 0)), (FIVE, 1, b'feat\tTrue\tx\tx\tx\tx', (9, 5)),
    (FIVE, 1, b'feat\ttrue\t1\tx\tx\tx', (9, 12)),
    (typed(b'String'), 1, b'feat\t=' + b'x' * 255, [string(6, 261)]), (typed(b'String'), 1, b'feat\t=' + b'x' * 256, (9, 5)), (typed(b'Number'), 999999, b'feat\t1', [num(1)]),
    (typed(b'Number'), 1000000, b'feat\t1', (1, 999999)),
    (typed(b'String'), 1, b'feat' + b'x' * 4092, (9, 0)), (typed(b'String'), 1, b'feat' + b'x' * 4093, (1, 4096)), (typed(b'Number'), 1, b'feat\t123456789012345', [num(123456789012345)]),
    (typed(b'Number'), 1, b'feat\t1234567890123456', (9, 5)), (typed(b'Number', b'n'), 1, b'feat\tnull', [NONE]), (typed(b'Number', b'a'), 1, b'feat\tnull', (9, 5)),
    (typed(b'Number', b'n'), 1, b'feat\t', (9, 5)),
    # the points that page 01 leaves open
    (b'', 1, b'feat', []), (b'', 1, b'feat\t', (9, 5)), (b'', 1, b'', (9, 0)), (b'', 0, b'feat', []), (b'', 2 ** 64 - 1, b'feat', (1, 999999)), (b'', 1000000, b'x' * 4097, (1, 4096)),
    (b'', 1000000, b'x', (1, 999999)),
    (b'', 1, b'feat ', (9, 0)), (b'', 1, b'feature', (9, 0)), (b'', 1, b'feat\r', (9, 0)), (typed(b'String', b'an'), 1, b'feat\t', [ABSENT]), (typed(b'String', b'an'), 1, b'feat\tnull', [NONE]),
    (typed(b'String', b'an'), 1, b'feat\t=null', [string(6, 10)]), (typed(b'String'), 1, b'feat\tnull', (9, 5)), (typed(b'String'), 1, b'feat\t', (9, 5)),
    (typed(b'String'), 1, b'feat\t=a\nb', [string(6, 9)]),
    (typed(b'String'), 1, b'feat\t=a\r', [string(6, 8)]), (typed(b'Number'), 1, b'feat\t1\r', (9, 5)), (typed(b'Number'), 1, b'feat\t+1', (9, 5)),
    (typed(b'Number'), 1, b'feat\tNaN', (9, 5)), (typed(b'Number'), 1, b'feat\t-Infinity', (9, 5)),
    (typed(b'Number'), 1, b'feat\t01', (9, 5)), (typed(b'Number'), 1, b'feat\t1.', (9, 5)), (typed(b'Number'), 1, b'feat\t--1', (9, 5)),
    (typed(b'Number'), 1, b'feat\t-123456789012.345', [num(-123456789012.345)]),
    (typed(b'vec2'), 1, b'feat\t1  2', (9, 5)), (typed(b'vec2'), 1, b'feat\t1 2 ', (9, 5)), (typed(b'vec2'), 1, b'feat\t-0 -0.0', [vector(-0.0, -0.0)]),
]


def shown_parts(values):
    return [(value.kind, parts_of(value)) for value in values]


def check_stated():
    for head, wanted in STATED:
        found = Head(head).answer()
        if isinstance(found, Style):
            assert wanted == tuple(map(len, found)), (head, found)
        else:
            assert wanted == found, (head, found)
    for head, number, line, wanted in STATED_FEATURES:
        found = Feature(sets_of(head), number, line).answer()
        assert found == wanted if isinstance(wanted, tuple) else shown_parts(found) == shown_parts(wanted), (head, line, found)
    assert Head(b'', ROOM - 1).answer() == (10, 0, 0) and Head(b'x' * 40000, ROOM - 1).answer() == (10, 0, 0) and Head(b'\n' * 32769).answer() == (1, 0, 32768)


# ---- wrong readings of heads, each of which some case has to find out

def wrong(**changes):
    return type('WrongHead', (Head,), changes)


def most(word, count):
    return wrong(MOST=Head.MOST | {word: count})


def stages(**changes):
    return wrong(STAGES=Head.STAGES | {word.encode(): stage for word, stage in changes.items()})


def count_before_word(self, word):
    if not self.is_known(word):
        raise Refused(8, 0)


def late_word(*checks):
    """Some of the word's checks only after the count."""
    def check_word(self, word):
        others = [check for check in ('is_out_of_order', 'is_one_too_many', 'is_beside') if check not in checks]
        if not self.is_known(word) or any(getattr(self, check)(word) for check in others):
            raise Refused(8, 0)

    def check_count(self, line, fields):
        Head.check_count(self, line, fields)
        if any(getattr(self, check)(fields[0].text) for check in checks):
            raise Refused(8, 0)
    return wrong(check_word=check_word, check_count=check_count)


def count_first(self, line, fields):
    """The count by the word alone, before whether the word may stand there."""
    Head.check_count(self, line, fields)
    Head.check_word(self, fields[0].text)


def fields_before_count(self, line, fields):
    """As many of the fields as there are."""
    if fields[0].text in (b'prop', b'define') and len(fields) > 1:
        self.need(fields[1], self.is_name(fields[1].text))
    Head.check_count(self, line, fields)


def from_the_right(self, line, fields):
    _, name, kind, flags = fields
    self.need(flags, flags.text in self.FLAGS)
    self.need(kind, kind.text in self.TYPES)
    Head.property(self, line, fields)


def type_first(self, line, fields):
    self.need(fields[2], fields[2].text in self.TYPES)
    Head.property(self, line, fields)


def repeated_last(self, line, fields):
    """Whether a name is there already after its type and flags."""
    _, name, kind, flags = fields
    if self.is_name(name.text):
        self.need(kind, kind.text in self.TYPES)
        self.need(flags, flags.text in self.FLAGS)
    Head.property(self, line, fields)


def name_of(is_byte, most=MOST_NAME, least=1):
    return wrong(is_name=lambda self, name: least <= len(name) <= most and all(is_byte(bytes([byte])) for byte in name))


def named_by(rule):
    return wrong(is_name=lambda self, name: Head.is_name(self, name) and rule(name))


def not_both(self, name, names):
    """One name for all."""
    return name not in self.properties and name not in self.defines


def in_any_case(self, name, names):
    return name.lower() not in [other.lower() for other in names]


def by_front(count):
    return wrong(is_free=lambda self, name, names: name[:count] not in [other[:count] for other in names])


def expression_first(self, line, fields):
    """A define's expression before its name."""
    self.kept = self.expressions[:]
    self.expression(line, fields[2], len(self.defines), DEFINE, TO_ANY)
    self.expressions = self.kept
    Head.define(self, line, fields)


def long_first(self, line):
    """1 of an expression before 8."""
    fields = self.fields(line.text)
    if fields[0].text in self.COUNTS and any(len(field.text) > 1024 for field in fields):
        raise Refused(1, 1024)
    Head.line(self, line)


def colour_first(self, line, fields, row):
    kept = self.expressions[:]
    self.expression(line, fields[2], row + 1, STYLE, TO_VEC4)
    self.expressions = kept
    Head.condition(self, line, fields, row)


def both_read_first(self, line, fields, row):
    """1 to 6 of both expressions before 7 of either."""
    for field in fields[1:]:
        number, place, _ = self.judged(field.text)
        if number:
            raise Refused(number, place)
    Head.condition(self, line, fields, row)


def all_lines_first(expression):
    """A pass over all lines before a second one."""
    def whole(self):
        self.sizes()
        first = wrong(expression=expression)(self.head)
        found = first.answer()
        if isinstance(found, Refusal):
            self.number = found.line
            raise Refused(found.number, found.place)
        Head.whole(self)
    return wrong(whole=whole)


def read_only(self, line, field, row, scope, wanted):
    number, place, _ = self.judged(field.text)
    if number:
        raise Refused(number, place)
    return 0


def size_last(self):
    """The head's size after its lines."""
    if self.room < self.ROOM:
        raise Refused(10, 0)
    for number, line in enumerate(self.lines(), 1):
        self.number = number
        self.line(line)
    self.number = 0
    self.sizes()


def size_before_room(self):
    if self.size() > self.MOST_HEAD:
        raise Refused(1, self.MOST_HEAD)
    Head.sizes(self)


def room_by_need(self):
    """As many slots as the head has bytes are enough."""
    if self.room < len(self.head):
        raise Refused(10, 0)
    if self.size() > self.MOST_HEAD:
        raise Refused(1, self.MOST_HEAD)


def size_of_line_one(self):
    if self.room >= self.ROOM:
        self.number = 1
    Head.sizes(self)


def place_of_size(self):
    if self.room >= self.ROOM and self.size() > self.MOST_HEAD:
        raise Refused(1, len(self.head))
    Head.sizes(self)


def changed_lines(change):
    """The lines after a change of the text, or of the list."""
    return wrong(lines=lambda self: change(Head.lines(self)))


def on_texts(change):
    return changed_lines(lambda found: [line._replace(text=change(line.text)) for line in found])


def with_last_line(self):
    found, at = [], 0
    for text in self.head.split(b'\n'):
        found.append(Line(at, text))
        at += len(text) + 1
    return found


def ended_lines(self):
    """What stands behind the last line feed is no line."""
    found = with_last_line(self)
    return found[:-1]


def by_returns(self):
    return [Line(0, text) for text in self.head.replace(b'\r\n', b'\n').replace(b'\r', b'\n').split(b'\n') if text]


def up_to_feat(found):
    kept = list(itertools.takewhile(lambda line: line.text.split(b'\t')[0] != b'feat', found))
    return kept


def counted_from_the_head(self, line):
    """Places of 8 in the head."""
    try:
        Head.line(self, line)
    except Refused as refusal:
        number, place = refusal.args
        raise Refused(number, place + line.at * (number == 8))


def rerun(change):
    """What the fields are after a change of them."""
    return wrong(fields=lambda self, text: change(fields_of(text)))


def trimmed_fields(fields):
    return [field._replace(text=field.text.strip(b' ')) for field in fields]


def by_runs_of_tabs(fields):
    return [field for i, field in enumerate(fields) if field.text or i == 0]


def rest_of_line(self, text):
    """The last expression goes up to the line's end."""
    fields = fields_of(text)
    count = self.COUNTS.get(fields[0].text, 99)
    if fields[0].text == b'prop' or len(fields) <= count:
        return fields
    return fields[:count - 1] + [fields[count - 1]._replace(text=b'\t'.join(field.text for field in fields[count - 1:]))]


def flagged(change):
    return wrong(property_kinds=lambda self, declared: declared_kinds(declared._replace(flags=change(declared.flags))))


def seen(define_rule, style_rule):
    return wrong(visible=lambda self, scope, properties, defines: (define_rule if scope == DEFINE else style_rule)(properties, defines))


def only_properties(properties, defines):
    return properties


def defines_first(properties, defines):
    return properties | defines


def properties_first(properties, defines):
    return defines | properties


def of_any_kind(self, scope):
    return Head.named(self, scope) | ({name: mask_of(KINDS) for name in self.defines} if scope == STYLE else {})


def wanted_as(change):
    return wrong(is_wanted=lambda self, found, wanted: Head.is_wanted(self, found, change(found, wanted)))


def defined_of_one_kind(self, found, wanted):
    return Head.is_wanted(self, found, wanted) and (wanted != TO_ANY or found & found - 1 == 0)


def long_without_spaces(self, line, field, row, scope, wanted):
    return Head.expression(self, line, field._replace(text=field.text.strip(b' ')) if len(field.text) > 1024 else field, row, scope, wanted)


def undeclared_refused(self, field, scope, wanted):
    names = self.named(scope)
    for node in evaluator_vectors.nodes(tree_of(field.text)):
        if node.form == 'leaf' and node.word[:1] == b'$' and node.word[2:-1] not in names:
            raise Refused(7, node.at)
    return Head.kinds(self, field, scope, wanted)


def tabs_and_spaces(self, text):
    """Outside expressions a space parts fields too."""
    return fields_of(text.replace(b' ', b'\t') if text[:4] == b'prop' else text)


WRONG = {
    'a 33rd property': most(b'prop', 33),
    '31 properties at most': most(b'prop', 31),
    'a 17th define': most(b'define', 17),
    '15 defines at most': most(b'define', 15),
    'a 17th condition': most(b'cond', 17),
    '15 conditions at most': most(b'cond', 15),
    'two of show': most(b'show', 2),
    'two of color': most(b'color', 2),
    'any number of properties': most(b'prop', 99),
    'any number of defines': most(b'define', 99),
    'any number of conditions': most(b'cond', 99),
    'properties behind defines': stages(define=0),
    'defines behind the style': stages(define=2),
    'properties anywhere': stages(prop=2),
    'show before color and cond': stages(color=3, cond=3),
    'show last': stages(show=3),
    'show before defines': stages(show=1),
    'cond behind color': wrong(is_beside=lambda self, word: word == b'color' and b'cond' in self.words),
    'color behind cond': wrong(is_beside=lambda self, word: word == b'cond' and b'color' in self.words),
    'color beside cond': wrong(is_beside=lambda self, word: False),
    'a repeated name': wrong(is_free=lambda self, name, names: True),
    'a repeated property': wrong(is_free=lambda self, name, names: names is self.properties or name not in names),
    'a repeated define': wrong(is_free=lambda self, name, names: names is self.defines or name not in names),
    'no define has a property\'s name': wrong(is_free=not_both),
    'names in any case': wrong(is_free=in_any_case),
    'names by 63 letters': by_front(63),
    'names by their first letter': by_front(1),
    'only the last name is looked at': wrong(is_free=lambda self, name, names: name not in list(names)[-1:]),
    'only the first name is looked at': wrong(is_free=lambda self, name, names: name not in list(names)[:1]),
    'lines from 0': wrong(FIRST_LINE=0),
    'the count before the word': wrong(check_word=count_before_word, check_count=count_first),
    'order after the count': late_word('is_out_of_order'),
    'one too many after the count': late_word('is_one_too_many'),
    'color beside cond after the count': late_word('is_beside'),
    'the name before the count': wrong(check_count=fields_before_count),
    'a property\'s fields from the right': wrong(property=from_the_right),
    'the type before the name': wrong(property=type_first),
    'a repeated name after the flags': wrong(property=repeated_last),
    'names of 65 bytes': wrong(MOST_NAME=65),
    'names of 63 bytes': wrong(MOST_NAME=63),
    'names of any length': wrong(MOST_NAME=99999),
    'the empty name': wrong(is_name=lambda self, name: name == b'' or Head.is_name(self, name)),
    'names with spaces': name_of(lambda b: b in NAME_BYTES + b' '),
    'names with -': name_of(lambda b: b in NAME_BYTES + b'-'),
    'names with dots': name_of(lambda b: b in NAME_BYTES + b'.'),
    'names with $': name_of(lambda b: b in NAME_BYTES + b'$'),
    'names of Latin letters': name_of(lambda b: b == b'_' or b.decode('latin-1').isalnum()),
    'names of bytes above 7F': name_of(lambda b: b in NAME_BYTES or b >= b'\x80'),
    'names of small letters': name_of(lambda b: b in NAME_BYTES[26:]),
    'names without underscores': name_of(lambda b: b in NAME_BYTES[:-1]),
    'names without digits': name_of(lambda b: b in LETTERS + b'_'),
    'no digit first': named_by(lambda name: not name[:1].isdigit()),
    'no literal words': named_by(lambda name: name not in WORDS),
    'any byte in a name': name_of(lambda b: True),
    'names by their first byte': wrong(is_name=lambda self, name: Head.is_name(self, name[:1]) and len(name) <= 64),
    'names by their last byte': wrong(is_name=lambda self, name: Head.is_name(self, name[-1:]) and len(name) <= 64),
    'types in any case': wrong(TYPES={case(word): kind for word, kind in TYPE_WORDS.items() for case in (bytes, bytes.lower, bytes.upper, bytes.capitalize)}),
    'na for an': wrong(FLAGS=FLAG_WORDS + [b'na']),
    'no flags for -': wrong(FLAGS=FLAG_WORDS + [b'']),
    'flags in capitals': wrong(FLAGS=FLAG_WORDS + [b'A', b'N', b'AN']),
    '-a and -n': wrong(FLAGS=FLAG_WORDS + [b'-a', b'-n', b'-an']),
    'without the type vec2': wrong(TYPES={word: kind for word, kind in TYPE_WORDS.items() if kind != VEC2}),
    'bool and float': wrong(TYPES=TYPE_WORDS | {b'bool': BOOLEAN, b'float': NUMBER, b'boolean': BOOLEAN}),
    'the flags exchanged': flagged(lambda flags: {'a': 'n', 'n': 'a'}.get(flags, flags)),
    'the flag a not seen': flagged(lambda flags: flags.replace('a', '')),
    'the flag n not seen': flagged(lambda flags: flags.replace('n', '')),
    'a define\'s expression before its name': wrong(define=expression_first),
    'a long expression before 8': wrong(line=long_first),
    'the colour before the condition': wrong(condition=colour_first),
    'both texts before both kinds': wrong(condition=both_read_first),
    'all of 8 before the expressions': all_lines_first(lambda self, line, field, row, scope, wanted: 0),
    'all texts before all kinds': all_lines_first(read_only),
    'the head\'s size last': wrong(whole=size_last),
    'the head\'s size before the room': wrong(sizes=size_before_room),
    'room for the head is enough': wrong(sizes=room_by_need),
    'room of 32,767': wrong(ROOM=ROOM - 1),
    'room of 32,769': wrong(ROOM=ROOM + 1),
    'the head\'s size on line 1': wrong(sizes=size_of_line_one),
    'the head\'s size at its end': wrong(sizes=place_of_size),
    'a head of 32,769 bytes': wrong(MOST_HEAD=MOST_HEAD + 1),
    'a head of 32,767 bytes': wrong(MOST_HEAD=MOST_HEAD - 1),
    'line feeds not counted in the head': wrong(size=lambda self: len(self.head.replace(b'\n', b''))),
    'the last line feed not counted': wrong(size=lambda self: len(self.head.removesuffix(b'\n'))),
    'no size of the head': wrong(size=lambda self: 0),
    'carriage returns taken off': on_texts(lambda text: text.rstrip(b'\r')),
    'carriage returns end lines': wrong(lines=by_returns),
    'empty lines left out': changed_lines(lambda found: [line for line in found if line.text]),
    'an empty line behind the last': wrong(lines=with_last_line),
    'the last line needs its end': wrong(lines=ended_lines),
    'empty lines at the end left out': changed_lines(lambda found: found[:-1] if found and not found[-1].text else found),
    'lines with # left out': changed_lines(lambda found: [line for line in found if line.text[:1] != b'#']),
    'spaces at a line\'s end taken off': on_texts(lambda text: text.rstrip(b' ')),
    'tabs at a line\'s end taken off': on_texts(lambda text: text.rstrip(b'\t')),
    'feat ends the head': changed_lines(up_to_feat),
    'feat is left out': changed_lines(lambda found: [line for line in found if line.text[:4] != b'feat']),
    'words by their front': rerun(lambda fields: [next((fields[0]._replace(text=word) for word in Head.COUNTS if fields[0].text.startswith(word)), fields[0])] + fields[1:]),
    'words in any case': rerun(lambda fields: [fields[0]._replace(text=fields[0].text.lower())] + fields[1:]),
    'spaces of fields taken off': rerun(trimmed_fields),
    'runs of tabs part fields': rerun(by_runs_of_tabs),
    'an expression up to the line\'s end': wrong(fields=rest_of_line),
    'spaces part fields': wrong(fields=tabs_and_spaces),
    'the spelling colour': rerun(lambda fields: [fields[0]._replace(text={b'colour': b'color'}.get(fields[0].text, fields[0].text))] + fields[1:]),
    'more fields than needed': wrong(fields=lambda self, text: fields_of(text)[:Head.COUNTS.get(fields_of(text)[0].text, 99)]),
    'place of a count at 0': wrong(end=lambda self, line: 0),
    'place of a count behind the line feed': wrong(end=lambda self, line: len(line.text) + 1),
    'place of a count at the last field': wrong(end=lambda self, line: line.text.rfind(b'\t') + 1),
    'place of a count in the head': wrong(end=lambda self, line: line.at + len(line.text)),
    'places of 8 in the head': wrong(line=counted_from_the_head),
    'place of a field at its tab': wrong(field_place=lambda self, field: field.at - 1),
    'place of a field at its end': wrong(field_place=lambda self, field: field.at + len(field.text)),
    'place of a field at 0': wrong(field_place=lambda self, field: 0),
    'places of expressions in the line': wrong(expression_place=lambda self, field, place: field.at + place),
    'an expression\'s size without spaces': wrong(expression=long_without_spaces),
    'a define sees another define': seen(defines_first, defines_first),
    'a define sees a define where there is no property': seen(properties_first, defines_first),
    'a property hides a define': seen(only_properties, properties_first),
    'a define hides nothing': seen(only_properties, only_properties),
    'in the style a name is a define': seen(only_properties, lambda properties, defines: defines),
    'a define sees no property': seen(lambda properties, defines: {}, defines_first),
    'a define of any kind': wrong(named=of_any_kind),
    'a define has one kind': wrong(is_wanted=defined_of_one_kind),
    'an undeclared name is refused': wrong(kinds=undeclared_refused),
    'show of any kind': wanted_as(lambda found, wanted: TO_ANY if wanted == TO_BOOLEAN else wanted),
    'colours of any kind': wanted_as(lambda found, wanted: TO_ANY if wanted == TO_VEC4 else wanted),
    'show may lack': wanted_as(lambda found, wanted: TO_ANY if wanted == TO_BOOLEAN and found & 4 else wanted),
    'a colour of three': wanted_as(lambda found, wanted: TO_ANY if wanted == TO_VEC4 and found & 64 else wanted),
    'show ends in a colour': wrong(ENDS={SHOW_ROW: TO_VEC4, COLOR_ROW: TO_VEC4}),
    'color ends in a truth': wrong(ENDS={SHOW_ROW: TO_BOOLEAN, COLOR_ROW: TO_BOOLEAN}),
    'rows of conditions from the defines on': wrong(condition=lambda self, line, fields, row: Head.condition(self, line, fields, row - 2)),
}


# ---- wrong readings of features

def wrong_feature(**changes):
    return type('WrongFeature', (Feature,), changes)


def with_number(change):
    """Numbers after a change of their text, where they are none as they stand."""
    def one_number(self, text):
        found = Feature.one_number(self, text)
        return found if found is not None else change(text)
    return wrong_feature(one_number=one_number)


def if_float(form):
    """What Python reads, if it is of the form."""
    def read(text):
        try:
            return float(text) if form(text) else None
        except ValueError:
            return None
    return with_number(read)


def positive_zero(self, text):
    found = Feature.one_number(self, text)
    return 0.0 if found == 0 else found


def integer_zero(self, text):
    return 0.0 if text == b'-0' else Feature.one_number(self, text)


def single_precision(self, text):
    found = Feature.one_number(self, text)
    return None if found is None else evaluator_vectors.single(num(found)).parts[0]


def tenths(self, text):
    """Each digit behind the point added by itself."""
    found = Feature.one_number(self, text)
    if found is None:
        return None
    whole, _, places = text.lstrip(b'-').partition(b'.')
    total = float(int(whole)) + sum(int(places[i:i + 1]) * 0.1 ** (i + 1) for i in range(len(places)))
    return -total if text[:1] == b'-' else total


def of_digits(most, count):
    """So many digits at most, counted in a way."""
    def unsigned(self, text, is_negative):
        form, end, _, _ = number_vectors.read(text, 0)
        if form == 0 or end != len(text) or count(text, is_negative) > most:
            return None
        return -float(text) if is_negative else float(text)
    return wrong_feature(unsigned=unsigned)


def digit_count(text, is_negative):
    return len(text.replace(b'.', b''))


def lacking_value(change):
    """Undefined or Null read in a wrong way."""
    def value(self, field, kinds):
        found = change(self, field, kinds)
        return Feature.value(self, field, kinds) if found is None else found
    return wrong_feature(value=value)


def if_text(text, given):
    return lacking_value(lambda self, field, kinds: given if field.text == text else None)


def string_if(text):
    """A String property reads it as a string."""
    return lacking_value(lambda self, field, kinds: Value(STRING, (False, field.at, field.at + len(field.text))) if field.text == text and kinds.bit_length() - 1 == STRING else None)


def any_lacking(self, field, kinds):
    """Either flag allows both."""
    return {b'': ABSENT, b'null': NONE}.get(field.text) if kinds & 3 else None


def exchanged_flags(self, field, kinds):
    return Feature.value(self, field, kinds & ~3 | (kinds & 1) << 1 | (kinds & 2) >> 1)


def bare_string(self, field):
    found = Feature.string(self, field)
    return found if field.text[:1] == b'=' else Value(STRING, (False, field.at, field.at + len(field.text)))


def string_size(size):
    def string(self, field):
        return None if size(field.text[1:]) > MOST_STRING or field.text[:1] != b'=' else Value(STRING, (False, field.at + 1, field.at + len(field.text)))
    return wrong_feature(string=string)


def characters(text):
    return len(text.decode('utf-8', 'replace'))


def moved_string(start, end):
    def string(self, field):
        found = Feature.string(self, field)
        return found and Value(STRING, (False, found.parts[1] + start, max(found.parts[1] + start, found.parts[2] + end)))
    return wrong_feature(string=string)


def string_without(is_bad):
    return wrong_feature(string=lambda self, field: None if is_bad(field.text) else Feature.string(self, field))


def truth_from(words):
    return wrong_feature(boolean=lambda self, text: truth(words[text]) if text in words else Feature.boolean(self, text))


def any_boolean(self, text):
    return Feature.boolean(self, text.lower())


def cut_numbers(self, text, kind):
    """More numbers than needed."""
    return Feature.numbers(self, b' '.join(text.split(b' ')[:SIZE[kind]]), kind)


def spread_number(self, text, kind):
    """One number for all components."""
    return Feature.numbers(self, b' '.join([text] * SIZE[kind]) if b' ' not in text else text, kind)


def filled_numbers(self, text, kind):
    """Zeros for those that lack."""
    found = text.split(b' ')
    return Feature.numbers(self, b' '.join(found + [b'0'] * (SIZE[kind] - len(found))), kind)


def reversed_numbers(self, text, kind):
    found = Feature.numbers(self, text, kind)
    return found and Value(kind, found.parts[::-1])


def changed_line(change):
    """The line after a change."""
    return wrong_feature(__init__=lambda self, sets, number, line: Feature.__init__(self, sets, number, change(line)))


def changed_number(change):
    return wrong_feature(__init__=lambda self, sets, number, line: Feature.__init__(self, sets, change(number), line))


def fields_first(self, fields):
    for field, kinds in zip(fields, self.sets):
        self.checked(field, kinds)
    return Feature.values(self, fields)


def last_field_first(self, fields):
    self.check_count(fields)
    return tuple(self.checked(field, kinds) for field, kinds in list(zip(fields, self.sets))[::-1])[::-1]


def filled_fields(self, fields):
    """Fields that lack are absent."""
    return Feature.values(self, fields + [Field(len(self.line), b'')] * (len(self.sets) - len(fields)))


def counted_first(self):
    fields = self.fields()
    self.check_count(fields[1:])
    self.check_word(fields[0].text)
    return self.values(fields[1:])


def answered_by(*steps):
    """The checks in another order."""
    def answer(self):
        try:
            for step in steps:
                found = step(self)
            return found
        except Refused as refusal:
            return refusal.args
    return wrong_feature(answer=answer)


def number_size(self):
    if self.number > MOST_NUMBER:
        raise Refused(1, MOST_NUMBER)


def rest(self):
    fields = self.fields()
    self.check_word(fields[0].text)
    return self.values(fields[1:])


def known_as(is_word):
    def check_word(self, word):
        if not is_word(word):
            raise Refused(9, 0)
    return wrong_feature(check_word=check_word)


def sized(place_of_line, place_of_number):
    def sizes(self):
        if len(self.line) > MOST_LINE:
            raise Refused(1, place_of_line(self))
        if self.number > MOST_NUMBER:
            raise Refused(1, place_of_number(self))
    return wrong_feature(sizes=sizes)


WRONG_FEATURES = {
    '-0 is 0': wrong_feature(one_number=positive_zero),
    '-0 is 0 but -0.0 is not': wrong_feature(one_number=integer_zero),
    'single precision': wrong_feature(one_number=single_precision),
    'fractions digit by digit': wrong_feature(one_number=tenths),
    'a + before a number': if_float(lambda text: text[:1] == b'+' and text[1:2].isdigit()),
    'NaN': if_float(lambda text: text == b'NaN'),
    'Infinity': if_float(lambda text: text.lstrip(b'-') == b'Infinity'),
    'zeros before a number': if_float(lambda text: text.lstrip(b'-')[:1] == b'0' and len(text) < 9),
    'no digit before the point': if_float(lambda text: text.lstrip(b'-')[:1] == b'.'),
    'no digit behind the point': if_float(lambda text: text[-1:] == b'.'),
    'exponents': if_float(lambda text: b'e' in text.lower() and text[:1].isdigit()),
    'a carriage return behind a number': if_float(lambda text: text[-1:] == b'\r'),
    'a line feed behind a number': if_float(lambda text: text[-1:] == b'\n'),
    '16 digits': of_digits(16, digit_count),
    '14 digits': of_digits(14, digit_count),
    'the - counted as a digit': of_digits(15, lambda text, is_negative: digit_count(text, is_negative) + is_negative),
    'the point counted as a digit': of_digits(15, lambda text, is_negative: len(text)),
    'a 0 in front not counted': of_digits(15, lambda text, is_negative: len(text.replace(b'.', b'').lstrip(b'0'))),
    'zeros at the end not counted': of_digits(15, lambda text, is_negative: len(text.replace(b'.', b'').rstrip(b'0'))),
    'digits of the whole part alone counted': of_digits(15, lambda text, is_negative: len(text.partition(b'.')[0])),
    'any number of digits': of_digits(99999, digit_count),
    'two of -': with_number(lambda text: Feature.one_number(Feature((), 0, b''), text[2:]) if text[:2] == b'--' else None),
    'a space behind the -': wrong_feature(numbers=lambda self, text, kind: Feature.numbers(self, text.replace(b'- ', b'-'), kind)),
    'a - alone is 0': with_number(lambda text: 0.0 if text == b'-' else None),
    'underscores in numbers': if_float(lambda text: b'_' in text),
    'absent without the flag': if_text(b'', ABSENT),
    'null without the flag': if_text(b'null', NONE),
    'either flag for both': lacking_value(any_lacking),
    'the flags exchanged': wrong_feature(value=exchanged_flags),
    'no field is absent': wrong_feature(value=lambda self, field, kinds: Feature.value(self, field, kinds & ~1)),
    'no field is null': wrong_feature(value=lambda self, field, kinds: Feature.value(self, field, kinds & ~2)),
    'null is a string': string_if(b'null'),
    'an empty field is the empty string': string_if(b''),
    '=null is null': lacking_value(lambda self, field, kinds: NONE if field.text == b'=null' and kinds & 2 else None),
    '= is absent': lacking_value(lambda self, field, kinds: ABSENT if field.text == b'=' and kinds & 1 else None),
    'undefined is absent': lacking_value(lambda self, field, kinds: ABSENT if field.text == b'undefined' and kinds & 1 else None),
    'null in any case': lacking_value(lambda self, field, kinds: NONE if field.text.lower() == b'null' and kinds & 2 else None),
    'spaces are absent': lacking_value(lambda self, field, kinds: ABSENT if field.text == b' ' and kinds & 1 else None),
    'strings without =': wrong_feature(string=bare_string),
    'strings of 256 bytes': string_size(lambda text: len(text) - 1),
    'strings of 254 bytes': string_size(lambda text: len(text) + 1),
    'strings of 255 characters': string_size(characters),
    'strings of any length': string_size(lambda text: 0),
    'a string with its =': moved_string(-1, 0),
    'a string one byte late': moved_string(1, 1),
    'a string without its last byte': moved_string(0, -1),
    'strings of ASCII': string_without(lambda text: any(byte > 127 for byte in text)),
    'strings without control bytes': string_without(lambda text: any(byte < 32 for byte in text)),
    'strings of UTF-8': string_without(lambda text: '\ufffd' in text.decode('utf-8', 'replace')),
    'no second =': string_without(lambda text: text.count(b'=') > 1),
    'no empty string': string_without(lambda text: text == b'='),
    'truths in any case': wrong_feature(boolean=any_boolean),
    '1 and 0 as truths': truth_from({b'1': True, b'0': False}),
    'truths by their first letter': truth_from({b't': True, b'f': False}),
    'truths exchanged': truth_from({b'true': False, b'false': True}),
    'more numbers than needed': wrong_feature(numbers=cut_numbers),
    'one number for all': wrong_feature(numbers=spread_number),
    'zeros for numbers that lack': wrong_feature(numbers=filled_numbers),
    'numbers from the right': wrong_feature(numbers=reversed_numbers),
    'runs of spaces': wrong_feature(parts=lambda self, text: [part for part in text.split(b' ') if part] if text.strip(b' ') == text else text.split(b' ')),
    'a space before': wrong_feature(parts=lambda self, text: text.removeprefix(b' ').split(b' ')),
    'a space behind': wrong_feature(parts=lambda self, text: text.removesuffix(b' ').split(b' ')),
    'commas': wrong_feature(parts=lambda self, text: text.replace(b',', b' ').split(b' ')),
    'commas and spaces': wrong_feature(parts=lambda self, text: text.replace(b', ', b' ').split(b' ')),
    'a line of 4,097 bytes': wrong_feature(MOST_LINE=MOST_LINE + 1),
    'a line of 4,095 bytes': wrong_feature(MOST_LINE=MOST_LINE - 1),
    'lines of any size': wrong_feature(MOST_LINE=99999),
    'the number 1,000,000': wrong_feature(MOST_NUMBER=MOST_NUMBER + 1),
    'the number 999,999 refused': wrong_feature(MOST_NUMBER=MOST_NUMBER - 1),
    'any number': wrong_feature(MOST_NUMBER=2 ** 64),
    'only the number 1,000,000 refused': changed_number(lambda number: number if number == 1000000 else 1),
    'numbers of 32 bits': changed_number(lambda number: number % 2 ** 32),
    'numbers of 20 bits': changed_number(lambda number: number % 2 ** 20),
    'signed numbers': changed_number(lambda number: number if number < 2 ** 63 else 0),
    'the number 0 refused': changed_number(lambda number: number or 1000000),
    'place of a long line at its end': sized(lambda self: len(self.line), lambda self: MOST_NUMBER),
    'place of the number by itself': sized(lambda self: MOST_LINE, lambda self: self.number),
    'place of the number at 1,000,000': sized(lambda self: MOST_LINE, lambda self: 1000000),
    'the number before the size': answered_by(number_size, Feature.sizes, rest),
    '9 before the sizes': answered_by(rest, Feature.sizes, rest),
    'the count before the word': answered_by(Feature.sizes, counted_first),
    'fields before the count': wrong_feature(values=fields_first),
    'fields from the right': wrong_feature(values=last_field_first),
    'fields that lack are absent': wrong_feature(values=filled_fields),
    'more fields than properties': wrong_feature(check_count=lambda self, fields: Feature.check_count(self, fields[:len(self.sets)])),
    'a tab at the end': changed_line(lambda line: line.removesuffix(b'\t') if line == b'feat\t' else line),
    'place of a count at 0': wrong_feature(end=lambda self: 0),
    'place of a count behind the line': wrong_feature(end=lambda self: len(self.line) + 1),
    'place of a count at the last field': wrong_feature(end=lambda self: self.line.rfind(b'\t') + 1),
    'place of a field at its tab': wrong_feature(field_place=lambda self, field: field.at - 1),
    'place of a field at its end': wrong_feature(field_place=lambda self, field: field.at + len(field.text)),
    'place of a field at 0': wrong_feature(field_place=lambda self, field: 0),
    'place of a field at 5': wrong_feature(field_place=lambda self, field: 5),
    'carriage returns taken off': changed_line(lambda line: line.rstrip(b'\r')),
    'a line feed ends it': changed_line(lambda line: line.split(b'\n')[0]),
    'a line feed taken off': changed_line(lambda line: line.removesuffix(b'\n')),
    'any word': known_as(lambda word: True),
    'the word in any case': known_as(lambda word: word.lower() == b'feat'),
    'words that begin with feat': known_as(lambda word: word[:4] == b'feat'),
    'spaces behind the word': known_as(lambda word: word.rstrip(b' ') == b'feat'),
    'fronts of the word': known_as(lambda word: b'feat'.startswith(word)),
    'no word': known_as(lambda word: word in (b'', b'feat')),
}


# ---- heads

def heads(texts):
    return [HeadCase(text) for text in texts]


def example_heads(source):
    texts = [head for head, _ in STATED]
    for i, line in enumerate(EXAMPLES.strip('\n').split('\n')):
        text = line.encode()
        other = [under_optional(prop(b'Line'), show(text), color(b"color('red')")), lines(prop(b'Height'), define(b'Height', b'${Height} / 2'), cond(b'${Height} > 1', text))]
        texts += [under_optional(define(b'd', text)), other[1 - i % 2]]
    height = lines(prop(b'Height'), define(b'NewHeight', b'clamp((${Height} - 0.5) / 2.0, 1.0, 255.0)'), define(b'HeightColor', b'rgb(${Height}, ${Height}, ${Height})'))
    texts += [height + lines(*rows) for rows in (
        [color(b"color('#00FF00') * ${HeightColor}"), show(b'${NewHeight} < 200.0')],
        [show(b'${NewHeight} < ${Height}'), cond(b'(${NewHeight} >= 50.0)', b"color('red')"), cond(b'true', b'${HeightColor}')],
        [color(b'${HeightColor}'), cond(b'true', b'${HeightColor}')], [show(b'${HeightColor}')], [color(b'${NewHeight}')], [show(b'${Height} < 1'), show(b'true')])]
    return heads(texts)


BAD_WORDS = [
    b'', b' ', b'Prop', b'PROP', b'props', b'pro', b'prop ', b' prop', b'prop\r', b'prop\0', b'p', b'property', b'proP', b'Define', b'defines', b'defin', b'define ', b'def', b'Show',
    b'shows', b'sho', b'show ', b' show', b'Color',
    b'colour', b'colo', b'colors', b'color ', b'COLOR', b'Cond', b'con', b'conds', b'condition', b'conditions', b'cond ', b'feat', b'feat ', b' feat', b'feature', b'Feat', b'fea', b'meta',
    b'#', b'//', b'# prop', b'\xef\xbb\xbfprop',
    b'\xff', b'prop\xa0', b'pr\xc3\xb6p', b'prop,A,Number,-', b'prop A Number -', b'show true', b'true', b'0', b'=', b'-', b'define=', b'"show"', b'x' * 300,
]
SHAPES = [[], [b'A', b'Number', b'-'], [b'd', b'1'], [b'true'], [b'color()'], [b'true', b'color()']]


def word_heads(source):
    """Unknown words with all shapes of lines behind them, on several lines."""
    texts = []
    for i, word in enumerate(BAD_WORDS):
        texts += [lines(row(word, *SHAPES[j % 6])) for j in (i, i + 1, i + 3)] + [under_optional(row(word, *SHAPES[i % 6])), under_optional(define(b'd'), row(word, *SHAPES[(i + 1) % 6]), show())]
        texts += [under_optional(define(b'd'), show(), row(word, *SHAPES[(i + 2) % 6])), under_optional(prop(b'B'), prop(b'C'), row(word, *SHAPES[(i + 3) % 6]), prop(b'D')),
            under_optional(cond(), cond(), row(word, *SHAPES[(i + 4) % 6]))]
    return heads(texts + [lines(row(b'', b'prop', b'A', b'Number', b'-')), lines(b'\t'), lines(b'\t\t\t'), under_optional(b'\t'), under_optional(b' show\ttrue'), under_optional(b'feat\t1', prop(b'B')), under_optional(b'feat'),
        under_optional(show(), b'feat\t')])


RIGHT = {b'prop': [b'A', b'Number', b'-'], b'define': [b'd', b'1'], b'show': [b'true'], b'color': [b'color()'], b'cond': [b'true', b'color()']}


def count_heads(source):
    """Every word with every count of fields, empty ones and right ones."""
    texts = []
    for word, fields in RIGHT.items():
        extra = [b'', b'x', b'-', b'true', b' ']
        for count in range(7):
            full = (fields + [extra[(count + i) % 5] for i in range(7)])[:count]
            texts += [lines(row(word, *full)), lines(row(word, *full)).rstrip(b'\n'), lines(row(word, *[b''] * count)), lines(row(word, *fields, *[b''] * count)), lines(row(word, *[b'?'] * count))]
            texts += [lines(prop(b'B'), row(word, *full)), lines(define(b'e'), row(word, *full), show())] if count != len(fields) else []
        texts += [lines(word + b'\t\t' + b'\t'.join(fields)), lines(b'\t'.join([word] + fields) + b'\t'), lines(b' '.join([word] + fields)), lines(b'\t' + row(word, *fields)),
            lines(b'  '.join([word] + fields)), lines(row(word, *fields) + b' ')]
        texts += [lines(row(word, *fields[:-1], fields[-1] + b'\t' + fields[-1])), lines(b',\t'.join([word] + fields)), lines(b'\t'.join([word] + fields).replace(b'\t', b'\t '))]
    return heads(texts)


GOOD_NAMES = [b'a', b'Z', b'_', b'0', b'9z', b'A_1', b'__', b'true', b'null', b'NaN', b'prop', b'feat', b'define', b'color', b'vec4', b'a' * 63, b'a' * 64, b'Z9_' * 21, b'0' * 64,
    NAME_BYTES, b'abcdefghijklmnopqrstuvwxyz', b'undefined', b'Number']
BAD_NAMES = [
    b'', b' ', b'a b', b' a', b'a ', b'a-b', b'a.b', b'$a', b'${a}', b'a\r', b'\r', b'a\0', b'\0', b'a\x7f', b'a/b', b'a:', b'a@', b'a[', b'a`', b'a{', b'/', b':', b'@', b'[', b'`', b'{',
    b'^', b'a^_', b'\x80', b'\xaa', b'\xb5', b'\xc0', b'\xe9', b'\xff',
    b'\xc3\xa9', b'a\xc3\xa9', b'\xd9\xa1', b'\xb2', b'a' * 65, b'a' * 66, b'a' * 128, b'a' * 320, b'0' * 65, b'_' * 65, b'a' * 64 + b' ', b'-', b'=a', b"'a'", b'a,b', b'a' * 64 + b'\r',
    b'a' * 63 + b'-', b'-' * 64, b'a' * 256, b'a' * 257, b'a' * 1025,
]


def name_heads(source):
    texts = []
    for name in GOOD_NAMES:
        texts += [lines(prop(name)), lines(define(name)), lines(prop(name, b'String'), define(name, b'${%s}' % name), show(b"${%s} === 'x'" % name)), lines(prop(name), prop(name)),
            lines(define(name), define(name))]
        texts += [lines(prop(b'x'), prop(name), prop(b'y'), prop(name, b'Boolean', b'a')), lines(prop(name), define(b'x'), define(name), define(b'y'), define(name, b'?')),
            lines(prop(name + b'x' if len(name) < 64 else name[:-1]), prop(name))]
    for name in BAD_NAMES:
        texts += [lines(prop(name)), lines(define(name)), lines(prop(b'x'), prop(name, b'x', b'x')), lines(prop(b'x'), define(b'y'), define(name, b'?'))]
    pairs = [(b'A', b'a'), (b'ab', b'abc'), (b'abc', b'ab'), (b'a' * 64, b'a' * 63 + b'b'), (b'a' * 63, b'a' * 64), (b'a1', b'a2'), (b'1a', b'2a'), (b'_a', b'a_'), (b'x', b'X')]
    texts += [lines(make(a), make(b)) for a, b in pairs for make in (prop, define)] + [lines(prop(a), define(b), define(a)) for a, b in pairs]
    texts += [lines(prop(a, b'String'), define(b, b"'x'"), show(b"${%s} === ${%s}" % pair)) for pair in pairs for a, b in [pair]]
    for i, j in itertools.combinations((0, 1, 2, 15, 30, 31), 2):
        names = [b'p%d' % k for k in range(j)] + [b'p%d' % i]
        texts += [lines(*map(prop, names)), lines(*[prop(name, b'vec2') for name in names], show())]
        if j < 16:
            texts.append(lines(*map(define, names)))
    return heads(texts)


BAD_TYPES = [
    b'', b' ', b'boolean', b'number', b'string', b'BOOLEAN', b'NUMBER', b'Bool', b'bool', b'float', b'Float', b'int', b'Vec2', b'VEC3', b'vec', b'vec1', b'vec5', b'vec22', b'vec2 ',
    b' vec2', b'Numbe', b'Numbers', b'Number ', b'Number\r', b'Null', b'null',
    b'Undefined', b'undefined', b'-', b'a', b'an', b'Boolean,Number', b'Array', b'RegExp', b'mat4', b'\xff', b'N\xc3\xbcmber', b'Number\0', b'Strin', b'Stringy', b'Boole', b'vec\xb2', b'NUMBER' * 50,
]
BAD_FLAGS = [b'', b' ', b'na', b'A', b'N', b'AN', b'aa', b'nn', b'ana', b'--', b'a-', b'-a', b'-n', b'-an', b'a n', b'a,n', b' a', b'a ', b'an ', b'-\r', b'a\r', b'\r', b'x', b'?', b'an\0',
    b'absent', b'null', b'none', b'0', b'1', b'\xff', b'\xe2\x88\x92', b'n-', b'+', b'a' * 200]


def type_heads(source):
    texts = []
    for kind, flags in itertools.product(TYPE_WORDS, FLAG_WORDS):
        one = prop(b'A', kind, flags)
        texts += [lines(one), lines(one, show(b'${A}')), lines(one, color(b'${A}')), lines(one, define(b'd', b'${A}'), define(b'e', b'${A} === null'), show(b'${e}')),
            lines(one, define(b'd', b'-${A}')), lines(one, define(b'd', b'!${A}'))]
    texts += [lines(prop(b'B', b'vec2'), prop(b'A', kind, flags)) for kind in BAD_TYPES for flags in (b'-', b'?')]
    texts += [lines(prop(b'A', kind, flags)) for flags in BAD_FLAGS for kind in (b'Number', b'vec4')]
    texts += [lines(prop(name, kind, flags)) for name in (b'A', b'', b'x' * 65) for kind in (b'String', b'', b'vec') for flags in (b'-', b'', b'na')]
    texts += [lines(prop(), prop(b'A', b'', b'')), lines(prop(), prop(b'A', b'Number', b'')), lines(prop(), prop(b'B', b'', b'na')), lines(prop(), prop(b'A', b'Number', b'an'))]
    return heads(texts)


def some_line(word, i):
    return {b'prop': prop(b'p%d' % i), b'define': define(b'd%d' % i), b'show': show(), b'color': color(), b'cond': cond()}[word]


def order_heads(source):
    """Every row of up to three lines, and every order of more."""
    rows = [words for count in (1, 2, 3) for words in itertools.product(RIGHT, repeat=count)]
    rows += list(itertools.permutations([b'prop', b'define', b'show', b'color'])) + list(itertools.permutations([b'prop', b'define', b'show', b'cond'])) + list(itertools.permutations(RIGHT))[::5]
    rows += [[b'prop'] * 2 + list(words) for words in itertools.permutations([b'define', b'define', b'show', b'cond', b'cond'])][::7]
    return heads([lines(*[some_line(word, i) for i, word in enumerate(words)]) for words in rows])


def end_heads(source):
    """Ends of lines, and lines with nothing in them."""
    whole = [OPTIONAL, define(b'd', b'${Lap}'), show(), cond()]
    texts = [b'', b'\n', b'\n\n', b'\r', b'\r\n', b'\r\n\r\n', b' ', b' \n', b'\t', b'\t\n', b'\0', b'\0\n', b'\n' * 100, b'\x1a']
    for count in range(1, 5):
        rows = whole[:count]
        text = lines(*rows)
        texts += [text, text[:-1], text + b'\n', text + b'\n\n', b'\n' + text, text + b' ', text + b' \n', text + b'\t', text + b'\r\n', text[:-1] + b'\r', text[:-1] + b'\r\n',
            text.replace(b'\n', b'\r\n'), text.replace(b'\n', b'\r'), text[:-1] + b' \n']
        texts += [text[:-1] + b'\t\n', text[:-1] + b'\0', text + b'\0', text + b'\x1a', text.replace(b'\n', b'\n\n'), text.replace(b'\n', b'\n\r'), text.replace(b'\n', b' \n'),
            text[:-1] + b'\x0b\n', text[:-1] + b'\x0c\n', text[:-1] + b'\x85\n', text.replace(b'\n', b'\x0b')]
        texts += [lines(*rows[:i], b'', *rows[i:]) for i in range(count + 1)] + [lines(*rows[:i], b'# nothing', *rows[i:]) for i in range(count + 1)]
    texts += [text + b'\r\n' for text in (show(), color(), cond(), define(b'd'), prop(), show(b'1'), cond(b'1', b'1'), cond(b'true', b'vec3(1)'), define(b'd', b''))]
    texts += [lines(row(b'cond', b'true\r', b'color()'))]
    return heads(texts)


def spaced(text, size):
    return text + b' ' * (size - len(text))


def full_head(size, last_end=b'\n'):
    """A right one of so many bytes, with all lines that there can be; the expressions of conditions grow by spaces, from the first on."""
    front = [prop(b'p%063d' % i, b'Boolean', b'an') for i in range(32)] + [define(b'd%063d' % i, spaced(b'${p%063d} === null' % i, 1024)) for i in range(16)] + [show(spaced(b'true', 1024))]
    texts = [text for i in range(16) for text in (b'${d%063d}' % i, b'color()')]
    lack = size - len(lines(*front, *[cond(*texts[i:i + 2]) for i in range(0, 32, 2)])) + 1 - len(last_end)
    for i, text in enumerate(texts):
        more = min(lack, 1024 - len(text))
        texts[i] = text + b' ' * more
        lack -= more
    assert lack == 0
    return lines(*front, *[cond(*texts[i:i + 2]) for i in range(0, 32, 2)])[:-1] + last_end


def dense_sum(source, count):
    """Of so many variables, in groups of eight."""
    names = [b'${p%d}' % (source.getrandbits(8) % 34) for _ in range(count)]
    return b' + '.join(b'(%s)' % b'+'.join(names[i:i + 8]) for i in range(0, count, 8))


def dense_heads(source):
    """Long expressions with many nodes, behind each other; p32 and p33 are not declared, some others are defines too."""
    front = COLUMNS[:32] + [define(b'p%d' % (5 * i), b'${p%d} * 2' % i) for i in range(6)]
    known = [dense_sum(source, count).replace(b'p32', b'p0').replace(b'p33', b'p31') for count in (8, 64, 110)]
    texts = [lines(*front, show(b'%s < 1' % text), *[cond(b'%s > 2' % text, b'vec4(%s)' % text)] * 2) for text in known] + [lines(*front, define(b'd', text), color(b'vec4(%s)' % text)) for text in known]
    return texts + [lines(*front, show(b'%s < 1' % dense_sum(source, count))) for count in (8, 64)]


def counted_limits(source):
    texts = []
    for count in (1, 2, 15, 16, 17, 18, 30, 31, 32, 33, 34, 40):
        columns = COLUMNS[:count]
        texts += [lines(*columns), lines(*columns, define(b'd'), show()), lines(*columns, prop(b'!')), lines(*columns, row(b'prop')), lines(*columns, prop(b'p0')),
            lines(*columns, show(b'${p%d} < ${p%d}' % (count - 1, count // 2)))]
    for count in (1, 2, 14, 15, 16, 17, 18, 20):
        rows = DEFINES[:count]
        texts += [lines(*rows), lines(OPTIONAL, *rows, show(b'${d%d} < ${Lap}' % (count - 1))), lines(*rows, color(b'vec4(${d%d})' % (count - 1))), lines(*rows, define(b'!')),
            lines(*rows, row(b'define')), lines(*rows, define(b'd0'))]
        colours = [cond(b'${Lap} === %d' % i, b'vec4(%d)' % i) for i in range(count)]
        texts += [under_optional(*colours), under_optional(show(), *colours), under_optional(*colours, show()), under_optional(*colours, row(b'cond')), under_optional(*colours, cond(b'?', b'?')), under_optional(*colours[:count // 2], show(), *colours[count // 2:])]
    return texts + [lines(show(), show()), lines(show(), row(b'show')), lines(show(), show(b'?')), lines(color(), color()), lines(color(), show(), color(b'?')),
        lines(color(), row(b'color')), lines(show(), color(), show()), lines(cond(), show(), cond(), show())]


def limit_heads(source):
    """Every limit at its edge."""
    texts = counted_limits(source) + dense_heads(source)
    for size in (1023, 1024, 1025):
        texts += [under_optional(define(b'd', spaced(b'1', size))), under_optional(show(spaced(b'true', size))), under_optional(show(spaced(b'1', size))), under_optional(color(spaced(b'color()', size))),
            under_optional(cond(spaced(b'true', size), b'?')), under_optional(cond(b'true', spaced(b'color()', size)))]
        texts += [under_optional(show(b"'" + b'x' * (size - 10) + b"' === ''")), under_optional(cond(spaced(b'?', size), spaced(b'color()', size))), under_optional(define(b'!', spaced(b'1', size))),
            under_optional(row(b'show', spaced(b'true', size), b'')), under_optional(show(), show(spaced(b'1', size))), b'x' * size]
        texts += [under_optional(cond(b'true' + b' ' * 1020, spaced(b'color()', size))), under_optional(define(b'd' * 64, b' ' * (size - 8) + b'${Lap}  ')), lines(show(spaced(b'true', size))),
            under_optional(define(b'd'), define(b'e'), show(), cond(), cond(b'true', spaced(b'#', size)))]
    big = [full_head(MOST_HEAD), full_head(MOST_HEAD, b''), full_head(MOST_HEAD + 1), full_head(MOST_HEAD + 1, b''), b'\n' * 32769]
    return heads(texts + big) + [HeadCase(b'x' * 32769, ROOM - 1)]


PLACES = [lambda text: define(b'd', text), show, color, lambda text: cond(text, b'?'), lambda text: cond(b'${Lap} === 1', text)]
WRONG_KINDS = [b'-true', b'1 + null', b'vec2(1, 2).z', b'${Lap} < 1', b'min(1)', b'true ? -${Lap} : 1', b'!1 && foo', b"'a' + 1", b'1   ', b'vec3(1)', b'null', b'${Lap}', b'${none}',
    b'true', b'color()', b'vec4(1)', b'1 < 2', b'true ? true : null', b'true ? color() : vec3(1)']


def expression_heads(source):
    """Every refusal of an expression in every place where one can stand."""
    texts = []
    faults = [fault for number in FAULTS for fault in FAULTS[number]] + WRONG_KINDS
    faults += [b'', b' ', b'1', b'1 --1', b'true \x7f', b'\x1f', b'\xa0true', b'(true', b'true)', b'1[4]', b'color', b'show', b"'\xff' === ''", b'${' + b'a' * 65 + b'}', b'${a b}', b'1e3', b'1 == 1']
    for i, fault in enumerate(faults):
        texts += [under_optional(make(fault)) for make in PLACES]
        texts += [lines(PLACES[i % 5](fault)), under_optional(prop(b'B'), define(b'e'), PLACES[(i + 1) % 5](b'  %s ' % fault) if i % 5 != 4 else define(b'f', fault), row(b'?'))]
    for a, b in itertools.product([b'#', b'(' * 33, b'1 1', unary_chain(64), b'foo(1)', b'-true', b'1', b'true'],
        [b'1' + b' ' * 1024, b'--', b'(' * 33, b')', b'!' * 65 + b'1', b'1.q', b'!1', b'vec3(1)', b'color()']):
        texts.append(under_optional(cond(a, b)))
    return heads(texts)


def hiding_heads(source):
    """Names that stand for properties, for defines, or for nothing."""
    texts = []
    types = [(b'Number', b'-'), (b'Number', b'a'), (b'Boolean', b'-'), (b'Boolean', b'n'), (b'String', b'-'), (b'vec4', b'-'), (b'vec4', b'an')]
    values = [b'1', b'true', b"'x'", b'vec4(1)', b'null', b'undefined', b'${A}', b'${A} === 1', b'true ? 1 : null', b'${B}', b'${A} === ${B}', b'true ? ${A} : ${B}']
    for (kind, flags), value in itertools.product(types, values):
        front = prop(b'A', kind, flags)
        texts += [lines(front, define(b'A', value), show(b'${A}')), lines(front, define(b'A', value), color(b'${A}')), lines(front, define(b'B', value), define(b'A', b'${B}'), show(b'${A} === ${B}'))]
    for uses in (b'${A} < 1', b'${B} < 1', b'${C} < 1', b'${A} === ${B}', b'${D} === undefined'):
        texts += [lines(prop(), prop(b'B', b'String'), define(b'B', b'${A}'), define(b'C', uses), show(b'${C} === 1')),
            lines(prop(), define(b'B', b'${A} + 1'), define(b'C', uses), cond(uses, b'color()')), lines(define(b'A'), define(b'B', b'${A}'), show(uses))]
        texts += [lines(prop(b'C'), define(b'C', uses), show(uses)), lines(prop(b'C'), define(b'C', b'${C}'), show(uses), cond(b'true', b'vec4(${C})'), cond(uses, b'vec4(1, ${A}, 1, 1)')),
            lines(prop(), show(uses)), lines(prop(b'B'), prop(), define(b'D', uses))]
    chain = [define(b'd%d' % i, b'${d%d}' % (i - 1)) for i in range(1, 6)]
    texts += [lines(prop(b'd0'), *chain[:n], show(b'${d%d} === ${d%d}' % (n, n - 1))) for n in range(1, 6)] + [lines(prop(b'd0'), *chain[:n], show(b'${d%d} < 1' % n)) for n in range(1, 6)]
    texts += [lines(prop(b'a'), define(b'A', b'true'), show(b'${%s}' % name)) for name in (b'a', b'A', b'aa', b'_')]
    texts += [lines(*COLUMNS[:32], *[define(b'p%d' % (31 - i), b'${p%d} < %d' % (i, i)) for i in range(16)], show(b'${p%d}' % i)) for i in (0, 15, 16, 17, 30, 31)]
    return heads(texts)


# A line of each word with what is wrong in it, in the order of page 01.
LINE_FAULTS = {
    b'prop': [row(b'prop'), prop(b''), prop(b'Lap'), prop(b'x', b'?'), prop(b'x', b'Number', b'?'), prop(b'', b'', b''), row(b'prop', b'', b'')],
    b'define': [row(b'define', b'!'), define(b'!', b'#'), define(b'x', b'#'), define(b'x', b')'), define(b'x', b'foo(1)'), define(b'x', b'-null'), row(b'define', b'!', b'#', b'')],
    b'show': [row(b'show'), show(b'(' * 33), show(b'-'), show(b'-true'), show(b'1'), row(b'show', b'#', b'')],
    b'color': [row(b'color'), color(b'1.q'), color(b"color('rad')"), color(b'vec4(true)'), color(b'vec3(1)'), row(b'color', b'#', b'')],
    b'cond': [row(b'cond', b'#'), cond(b'#', b'#'), cond(b'true', b'#'), cond(b'1', b'#'), cond(b'true', b'1'), row(b'cond', b'#', b'#', b'#')],
    b'?': [b'', row(b'?', b'#'), row(b'feat', b'1')],
}


def first_heads(source):
    """Several faults: the earlier line counts, and in a line what page 01 puts first."""
    faults = [fault for word in LINE_FAULTS for fault in LINE_FAULTS[word]]
    pairs = list(itertools.product(faults, faults))
    texts = [under_optional(a, b) for a, b in pairs[::5]] + [under_optional(a) for a in faults] + [under_optional(prop(b'B'), a, show(b'#')) for a in faults] + [under_optional(show(), a) for a in faults]
    texts += [under_optional(color(), a) for a in faults] + [under_optional(define(b'd'), cond(), a, b'') for a in faults]
    texts += [under_optional(*[show() if i % 2 else cond() for i in range(2)], a, b) for a, b in pairs[1::17]] + [under_optional(show(b'${x}'), a) for a in faults[::2]]
    return heads(texts)


ODD_BYTES = b'\x00\x01\x08\x0b\x0c\x0d\x1b\x1f\x20!"#$%&\'-./09:@AZ[\\`az{|~\x7f\x80\x85\xa0\xad\xbf\xc0\xc3\xe9\xfe\xff'


def byte_heads(source):
    """One byte put in or changed, everywhere in a head."""
    whole = lines(OPTIONAL, define(b'd', b"'a' === 'b'"), show(b'${d}'), cond(b'true', b'color()'))
    texts = []
    for i in range(len(whole)):
        odd = [ODD_BYTES[(7 * i + 11 * k) % len(ODD_BYTES)] for k in range(2)] + [chosen(source, [0x80, 0xC3, 0xFF])]
        texts += [whole[:i] + bytes([odd[0]]) + whole[i:]] + [whole[:i] + bytes([byte]) + whole[i + 1:] for byte in odd[1:]]
    for byte in range(256):
        b = bytes([byte])
        texts += [lines(prop(b'a' + b + b'c')), lines(show(b"'%s' === ''" % b)), lines(show(b'true ' + b))] if byte % 3 == 0 else [lines(prop(b)), lines(define(b)), lines(b + b'prop')]
    return heads(texts + [whole[:i] for i in range(len(whole))] + [whole[:i] + whole[i + 1:] for i in range(0, len(whole), 2)])


def room_heads(source):
    """Rooms too small, which counts before all, and rooms larger than need be."""
    texts = [b'', b'\n', SAMPLE_HEAD, lines(prop(b'!')), under_optional(show(b'#')), lines(show()), b'feat', under_optional(cond(b'1', b'1'))]
    return [HeadCase(text, room) for text in texts for room in (0, 1, 30, 1024, 16384, ROOM - 1)] + [HeadCase(text, room) for text in texts for room in (ROOM + 1, 33000)]


# ---- random heads

def random_expression(source, names, kind, slips):
    for _ in range(20):
        text = Writer(source, names, slips).text(kind, source.getrandbits(8) % 4)
        if len(text) <= 200:
            return text
    return b'true'


def random_rows(source, slips):
    """A head that is right but for slips of kinds."""
    properties = random_properties(source)
    rows = [prop(p.name, TYPES[p.kind], p.flags.encode()) for p in properties]
    defines = distinct(chosen(source, [b'p', b'q', b'd', b'e', b'f', b'Height', b'_1']) for _ in range(source.getrandbits(8) % 5))
    found = {}
    for name in defines:
        text = random_expression(source, {p.name: declared_kinds(p) for p in properties}, source.getrandbits(3), slips)
        rows.append(define(name, text))
        style = Head(lines(*rows)).answer()
        if isinstance(style, Style):
            found[name] = style.defines[-1].kinds
    names = {p.name: declared_kinds(p) for p in properties} | found
    style = [show(random_expression(source, names, BOOLEAN, slips))] * (source.getrandbits(2) > 0)
    if source.getrandbits(1):
        style += [cond(random_expression(source, names, BOOLEAN, slips), random_expression(source, names, VEC4, slips)) for _ in range(source.getrandbits(8) % 4)]
    else:
        style.append(color(random_expression(source, names, VEC4, slips)))
    source.shuffle(style)
    return rows + style


def random_heads(source):
    return heads([lines(*random_rows(source, slips)) for slips in (0, 0, 1, 4) for _ in range(32)])


def damaged_rows(source, rows):
    """A line left out, doubled, exchanged with another, or with a field left out, put in or changed."""
    i, j = source.getrandbits(16) % len(rows), source.getrandbits(16) % len(rows)
    fields = rows[i].split(b'\t')
    k = source.getrandbits(16) % len(fields)
    word = chosen(source, [b'', b'x', b'prop', b'define', b'show', b'color', b'cond', b'Number', b'an', b'a', b'p', b'true', b'-', b'null', b'vec4(1)', b'${q}', b'\xff', b'#'])
    changed = [fields[:k] + fields[k + 1:], fields[:k] + [word] + fields[k:], fields[:k] + [word] + fields[k + 1:], fields[:k] + fields[k:k + 2][::-1] + fields[k + 2:]]
    swapped = rows[:]
    swapped[i], swapped[j] = rows[j], rows[i]
    return chosen(source, [rows[:i] + rows[i + 1:], rows[:j] + [rows[i]] + rows[j:], swapped] + [rows[:i] + [b'\t'.join(new)] + rows[i + 1:] for new in changed] * 2)


def damaged_text(source, text):
    """A byte left out, put in, changed, or two exchanged."""
    i, byte = source.getrandbits(16) % max(len(text), 1), bytes([chosen(source, list(b'\t\n\r aA0_-=.(){}$#\'"\x80\xff') + [source.getrandbits(8)])])
    return chosen(source, [text[:i] + text[i + 1:], text[:i] + byte + text[i:], text[:i] + byte + text[i + 1:], text[:i] + text[i:i + 2][::-1] + text[i + 2:]])


def damaged_heads(source):
    texts = [lines(*damaged_rows(source, random_rows(source, 0))) for _ in range(110)] + [damaged_text(source, lines(*random_rows(source, 0))) for _ in range(90)]
    return heads(texts + [damaged_text(source, lines(*damaged_rows(source, random_rows(source, 1)))) for _ in range(30)])


# ---- features

FORMS = [
    b'', b'null', b'true', b'false', b'True', b'TRUE', b'FALSE', b'tru', b'truee', b't', b'f', b'true ', b' true', b'NULL', b'Null', b'nul', b'nulll', b'null ', b' null', b'undefined',
    b'NaN', b'Infinity', b'-Infinity', b'0', b'-0', b'0.0', b'-0.0', b'1', b'-1',
    b'+1', b'--1', b'- 1', b'-', b'.', b'.5', b'-.5', b'1.', b'01', b'00', b'-01', b'1.5', b'-1.50', b'1e3', b'1E3', b'0x10', b'1_0', b'1,5', b' 1', b'1 ', b'1 2', b'1  2', b'1 2 ', b' 1 2',
    b'1 2 3', b'1 2 3 4', b'1 2 3 4 5', b'-0 -0', b'1,2', b'1, 2', b'1 null', b'1 -2 0.5',
    b'1 true', b'0 0 0 0', b'-1 -2 -3 -4', b'1\r', b'=', b'=null', b'=true', b'=1', b'= ', b'=a b', b'==', b'=\xc3\xa9', b'=\xff', b'=a\nb', b'a', b"'a'", b'"a"', b' =a', b'[1, 2]',
    b'vec2(1, 2)', b' ', b'  ', b'\xff', b'\0', b'1\0', b'123456789012345', b'1234567890123456', b'=' + b'x' * 256,
]


def field_features(source):
    """Every form of a field for every property."""
    some = list(zip(FLAG_WORDS, (FORMS, FORMS[:22], FORMS[:22], FORMS[::2])))
    return [FeatureCase(typed(kind, flags), b'feat\t' + form) for kind in TYPE_WORDS for flags, forms in some for form in forms]


def number_texts(source):
    texts = [text for text, at in number_vectors.literals(source) if at == 0 and b'\t' not in text]
    negative = [b'-' + text for text in texts[::2]] + [b'-' + b'9' * n for n in (14, 15, 16)] + [b'-0.' + b'0' * n for n in (1, 14, 15)]
    return distinct(texts + negative + [b'9' * n for n in (14, 15, 16, 17, 300)] + [b'0.' + b'0' * n for n in (13, 14, 15)])


def number_features(source):
    texts = number_texts(source)
    cases = [FeatureCase(typed(b'Number'), b'feat\t' + text) for text in texts]
    return cases + [FeatureCase(lines(prop(b'A', b'Number', b'an'), prop(b'B', b'Number')), b'feat\t%s\t%s' % (text, chosen(source, texts))) for text in texts[::5]]


def vector_features(source):
    """Every component in every place, and wrong ones there."""
    cases = []
    good = [b'0', b'-0', b'1', b'-1.5', b'0.1', b'123456789012345', b'-99999999999999.9', b'0.00000000000001', b'-0.0', b'255']
    bad = [b'', b'-', b'+1', b'01', b'1.', b'.5', b'NaN', b'null', b'1234567890123456', b'x', b'=1', b'1\r', b'\xff', b'1e1', b'--1']
    for kind in VECTORS:
        size = SIZE[kind]
        for i, number in enumerate(good):
            parts = [good[(i + 3 * k) % len(good)] for k in range(size)]
            cases += [(kind, gap.join(parts)) for gap in ((b' ', b'  ', b',', b', ', b'\r', b'\n', b'\x0b', b'\xa0', b'') if i < 2 else (b' ',))]
            cases += [(kind, b' '.join(parts[:k])) for k in range(size)] + [(kind, b' '.join(parts + good[:k])) for k in (1, 2)]
            cases += [(kind, before + b' '.join(parts) + behind) for before, behind in ((b' ', b''), (b'', b' '), (b'', b'\n'), (b'\n', b''), (b'', b'\r'), (b'(', b')'), (b'', b','),
                (b'=', b'')) if i < 3]
            cases += [(kind, b' '.join(parts[:k] + [bad[(i + 4 * k + m) % len(bad)]] + parts[k + 1:])) for k in range(size) for m in (0, 7)]
    return [FeatureCase(typed(TYPES[kind], FLAG_WORDS[i % 4]), b'feat\t' + text) for i, (kind, text) in enumerate(cases)]


def string_features(source):
    """Lengths at the limit, and every byte but a tab."""
    texts = [b'x' * n for n in (0, 1, 2, 10, 63, 64, 65, 253, 254, 255, 256, 257, 300, 1000, 4000)] + [b'\xc3\xa9' * n for n in (1, 64, 127, 128, 200)] + [b'\xff' * n for n in (255, 256)]
    texts += [b' ' * n for n in (1, 254, 255, 256)]
    texts += [b'a' + bytes([byte]) + b'z' for byte in range(256) if byte != 9] + [b'=' * n for n in (1, 2, 254, 255, 256)]
    texts += [b'null', b'true', b'1', b'feat', b'', b' a ', b"it's", b'\\', b'\\t', b'\\n', b'${A}', b'a\r', b'\r', b'\n', b'\n\n', b'a\nfeat', b'\0' * 255, b'\xf0\x9f\x8e\xa8',
        b'a' * 254 + b'\r', b'a' * 255 + b'\r']
    two = lines(prop(b's', b'String', b'a'), prop(b't', b'String', b'n'))
    cases = [FeatureCase(typed(b'String'), b'feat\t=' + text) for text in texts] + [FeatureCase(two, b'feat\t=%s\t=%s' % (text, chosen(source, texts[:30]))) for text in texts[::4]]
    return cases + [FeatureCase(two, b'feat\t%s\t%s' % pair) for pair in itertools.product([b'', b'null', b'=', b'=a', b'a', b'=null', b'==', b' ', b"'a'"], repeat=2)]


SAMPLES = {BOOLEAN: b'true', NUMBER: b'-2.5', STRING: b'=abc', VEC2: b'1 2', VEC3: b'0.5 -0 3', VEC4: b'1 0.5 0.25 -0'}
ALL_TYPES = lines(*[prop(TYPES[kind][:1] + b'%d' % i, TYPES[kind]) for i, kind in enumerate(TYPES)])


def counted_features(source):
    """Every count of fields for some counts of properties."""
    cases = []
    for count in (0, 1, 2, 3, 6, 32):
        kinds = [list(TYPES)[i % 6] for i in range(count)]
        schema = lines(*[prop(b'p%d' % i, TYPES[kind], b'an') for i, kind in enumerate(kinds)])
        full = [SAMPLES[kind] for kind in kinds]
        cases += [(schema, b'\t'.join([b'feat'] + (full + [b'', b'x', b'1'])[:n])) for n in sorted({0, 1, 2, max(count - 1, 0), count, count + 1, count + 2})]
        cases += [(schema, b'feat' + b'\t' * n) for n in sorted({max(count - 1, 0), count, count + 1, count + 40})] + [(schema, b'feat' + b'\tnull' * n) for n in (count, count + 1)]
        cases += [(schema, b'feat' + b'\tx' * n) for n in (count, count + 1)]
        cases += [(schema, b'\t'.join([b'feat'] + full) + b'\t'), (schema, b'\t'.join([b'feat'] + full) + b' '), (schema, b'\t' + b'\t'.join([b'feat'] + full)),
            (schema, b'\t\t'.join([b'feat'] + full)), (schema, b' '.join([b'feat'] + full))]
        cases += [(schema, b'\t'.join([b'feat'] + full[:i] + [bad] + full[i + 1:])) for i in sorted({0, count // 2, count - 1}) if i >= 0 for bad in (b'?', b'', b'null', b' ')]
        cases += [(schema, b'\t'.join([b'feat'] + full[:i] + [b'?'] * (count - i))) for i in range(0, count, 5)]
    return [FeatureCase(*pair) for pair in cases]


def line_features(source):
    """Words, and ends of lines."""
    words = [b'', b' ', b'Feat', b'FEAT', b'fea', b'feat ', b' feat', b'feats', b'feature', b'feat\r', b'feat\n', b'\nfeat', b'feat\0', b'f', b'prop', b'show', b'define', b'\xff', b'feat,',
        b'feat=', b'featfeat', b'null', b'\xef\xbb\xbffeat', b'x' * 100]
    cases = [(head, row(word, *fields)) for word in words for head, fields in ((b'', []), (typed(b'Number'), [b'1']), (typed(b'Number'), [b'x']), (typed(b'Number'), []),
        (SAMPLE_HEAD, [b'1', b'']), (typed(b'Number'), [b'1', b'2']))]
    ends = [b'\r', b'\n', b'\r\n', b'\n\n', b' ', b'\t', b'\0', b'\t\r', b'\t\n', b'\nfeat\t1']
    cases += [(head, line + end) for end in ends for head, line in ((b'', b'feat'), (typed(b'Number'), b'feat\t1'), (typed(b'Number', b'a'), b'feat\t'), (typed(b'String'), b'feat\t=a'),
        (typed(b'Boolean'), b'feat\ttrue'), (typed(b'vec2'), b'feat\t1 2'), (typed(b'String', b'n'), b'feat\tnull'))]
    cases += [(lines(prop(), prop(b'B', b'String')), b'feat\t1%s\t=b' % end) for end in ends] + [(head, b'\n') for head in (b'', SAMPLE_HEAD)] + [(head, b'\t') for head in (b'', SAMPLE_HEAD)]
    return [FeatureCase(*pair) for pair in cases]


SEVENTEEN = lines(*[prop(b's%d' % i, b'String') for i in range(17)])


def long_line(size):
    """A right line of so many bytes."""
    fields = [b'='] * 17
    lack = size - len(row(b'feat', *fields))
    for i in range(17):
        more = min(lack, 255)
        fields[i] += b'y' * more
        lack -= more
    assert lack == 0
    return row(b'feat', *fields)


def size_features(source):
    """Lines and numbers at their limits."""
    cases = [(SEVENTEEN, long_line(size)) for size in (4095, 4096, 4097, 4098)] + [(SEVENTEEN, long_line(size)[:-1] + b'\t') for size in (4096, 4097)]
    cases += [(head, line) for size in (4096, 4097) for head, line in ((b'', b'x' * size), (typed(b'String'), b'feat\t=' + b'x' * (size - 6)), (b'', b'feat' + b'\t' * (size - 4)),
        (typed(b'Number'), b'feat\t' + b'1' * (size - 5)))]
    plain = [FeatureCase(*pair) for pair in cases] + [FeatureCase(*pair, number) for pair in cases[1:3] for number in (999999, 1000000)] + [FeatureCase(b'', b'x' * 8192)]
    numbers = [0, 1, 2, 255, 65535, 65536, 99999, 999998, 999999, 1000000, 1000001, 1048575, 1048576, 1048577, 1999999, 2 ** 24, 2 ** 31 - 1, 2 ** 31, 2 ** 32 - 1, 2 ** 32, 2 ** 32 + 1,
        2 ** 32 + 999999, 10 ** 12, 2 ** 53, 2 ** 63 - 1, 2 ** 63, 2 ** 63 + 1, 2 ** 64 - 1]
    lines_of = [(b'', b'feat'), (typed(b'Number'), b'feat\t1'), (typed(b'Number'), b'feat\tx'), (typed(b'Number'), b'feat'), (b'', b''), (SAMPLE_HEAD, b'feat\t39\t0.25'), (b'', b'x' * 4097)]
    return plain + [FeatureCase(*pair, number) for number in numbers for pair in lines_of[:6 if number not in (0, 999999, 1000000) else 7]]


# ---- random features

def random_number(source):
    return chosen(source, [b'', b'-']) + number_vectors.pointed(source, 1 + source.getrandbits(8) % 15, 1).encode().rstrip(b'.') if source.getrandbits(1) else b'%d' % (source.getrandbits(8) - 100)


def random_field(source, declared):
    lacking = [b''] * ('a' in declared.flags) + [b'null'] * ('n' in declared.flags)
    if lacking and source.getrandbits(1):
        return chosen(source, lacking)
    if declared.kind == BOOLEAN:
        return chosen(source, [b'true', b'false'])
    if declared.kind == STRING:
        return b'=' + bytes(chosen(source, [byte for byte in range(256) if byte != 9]) for _ in range(source.getrandbits(8) % 9))
    return b' '.join(random_number(source) for _ in range(SIZE[declared.kind]))


def random_feature(source):
    properties = random_properties(source)
    schema = lines(*[prop(p.name, TYPES[p.kind], p.flags.encode()) for p in properties])
    style = chosen(source, [b'', b'', lines(show()), lines(define(b'd', b'${p}'), color())])
    return FeatureCase(schema + style, row(b'feat', *[random_field(source, p) for p in properties]))


def schema_features(source):
    """Features that conform, also under all types and 32 properties."""
    cases = [random_feature(source) for _ in range(140)] + [FeatureCase(ALL_TYPES, row(b'feat', *SAMPLES.values()))]
    for _ in range(6):
        properties = [Property(b'p%d' % i, chosen(source, list(TYPES)), chosen(source, FLAGS)) for i in range(32)]
        cases.append(FeatureCase(lines(*[prop(p.name, TYPES[p.kind], p.flags.encode()) for p in properties]), row(b'feat', *[random_field(source, p) for p in properties])))
    return cases


def damaged_features(source):
    cases = []
    for _ in range(130):
        case = random_feature(source)
        fields = case.line.split(b'\t')
        i, j = 1 + source.getrandbits(16) % (len(fields) - 1), 1 + source.getrandbits(16) % (len(fields) - 1)
        swapped = fields[:]
        swapped[i], swapped[j] = fields[j], fields[i]
        changed = chosen(source, [swapped, fields[:i] + [chosen(source, FORMS)] + fields[i + 1:], fields[:i] + fields[i + 1:], fields[:i] + [chosen(source, FORMS)] + fields[i:]])
        cases += [case._replace(line=damaged_text(source, case.line)), case._replace(line=b'\t'.join(changed))]
    return cases


# ---- files

HEAD_FILES = {
    'examples': example_heads, 'words': word_heads, 'counts': count_heads, 'names': name_heads, 'types': type_heads, 'orders': order_heads, 'ends': end_heads, 'limits': limit_heads,
    'expressions': expression_heads,
    'hiding': hiding_heads, 'first': first_heads, 'bytes': byte_heads, 'room': room_heads, 'random': random_heads, 'damaged': damaged_heads,
}
FEATURE_FILES = {
    'stated': lambda source: [FeatureCase(head, line, number) for head, number, line, _ in STATED_FEATURES], 'fields': field_features, 'numbers': number_features, 'vectors': vector_features,
    'strings': string_features,
    'counted': counted_features, 'lines': line_features, 'sizes': size_features, 'schemas': schema_features, 'spoilt': damaged_features,
}


def head_record(case, answer):
    refusal, style = (answer, Style((), (), ())) if isinstance(answer, Refusal) else (Refusal(0, 0, 0), answer)
    rows = [expression.row for expression in style.expressions]
    assert len(case.head) <= LONGEST_HEAD and case.room <= LONGEST_HEAD and all(len(expression.tree) <= LONGEST for expression in style.expressions)
    counts = len(style.properties), len(style.defines), sum(row >= COND_ROW for row in rows) // 2, rows.count(SHOW_ROW), rows.count(COLOR_ROW), len(rows)
    found = b'%04x %04x %x %04x %04x %02x %02x %02x %x %x %02x\n' % (case.room, len(case.head), *refusal, *counts) + case.head + b'\n'
    names = list(enumerate(style.properties)) + list(enumerate(style.defines, MOST_PROPERTIES))
    found += b''.join(b'%02x %04x %04x %02x\n' % (row, *name) for row, name in names)
    return found + b''.join(b'%02x %04x %04x %03x %04x\n' % (*part[:4], len(part.tree)) + part.tree + b'\n' for part in style.expressions)


def parts_of(value):
    """As they stand in lines."""
    if value.kind == STRING:
        return [value.parts[1] << 32 | value.parts[2]]
    if value.kind == BOOLEAN:
        return [int(value.parts[0])]
    return [bits(x) for x in value.parts] or [0]


def is_refusal(answer):
    return len(answer) == 2 and not any(isinstance(part, Value) for part in answer)


def feature_record(case, answer):
    refusal, values = (answer, ()) if is_refusal(answer) else ((0, 0), answer)
    assert len(case.head) <= LONGEST and len(case.line) <= LONGEST
    found = [b'%02x %x %x %016x\n' % (i, value.kind, j, part) for i, value in enumerate(values) for j, part in enumerate(parts_of(value))]
    line = b'%04x %016x %04x %x %05x %02x\n' % (len(case.head), case.number, len(case.line), *refusal, len(found))
    return line + case.head + b'\n' + case.line + b'\n' + b''.join(found)


def answer_of(case, heads_by=Head, features_by=Feature):
    if isinstance(case, HeadCase):
        return heads_by(*case).answer()
    return features_by(sets_of(case.head), case.number, case.line).answer()


def is_same(case, a, b):
    """Bit for bit."""
    if isinstance(case, HeadCase):
        return a == b
    if is_refusal(a) or is_refusal(b):
        return a == b
    return shown_parts(a) == shown_parts(b)


def check_telling(answers):
    ordered = sorted(answers, key=lambda case: len(case.head) + len(getattr(case, 'line', b'')))
    for names, kind in ((WRONG, HeadCase), (WRONG_FEATURES, FeatureCase)):
        cases = [case for case in ordered if isinstance(case, kind)]
        for name, rules in names.items():
            changed = {'heads_by' if kind is HeadCase else 'features_by': rules}
            assert any(not is_same(case, answer_of(case, **changed), answers[case]) for case in cases), name


def check_covered(answers):
    """Every number is given, most of them on several lines and at several places; and many heads and features are accepted."""
    refusals = {answer for case, answer in answers.items() if isinstance(answer, Refusal)}
    for number in range(1, 11):
        found = [refusal for refusal in refusals if refusal.number == number]
        assert number == 9 or len(found) >= (1 if number == 10 else 3), number
    features = {answer for case, answer in answers.items() if isinstance(case, FeatureCase) and is_refusal(answer)}
    assert {number for number, _ in features} == {1, 9} and len(features) > 20
    for kind in (HeadCase, FeatureCase):
        accepted = [case for case, answer in answers.items() if isinstance(case, kind) and not isinstance(answer, Refusal) and (kind is HeadCase or not is_refusal(answer))]
        assert len(accepted) > 400, (kind, len(accepted))


def main():
    sys.setrecursionlimit(20000)
    check_stated()
    source = random.Random(SEED)
    answers, files = {}, {}
    for name, cases in (HEAD_FILES | FEATURE_FILES).items():
        new = {case: answer_of(case) for case in distinct(cases(source)) if case not in answers}
        answers.update(new)
        files[name] = [(head_record if isinstance(case, HeadCase) else feature_record)(case, answer) for case, answer in new.items()]
    check_covered(answers)
    check_telling(answers)
    write('head_cases', files)


if __name__ == '__main__':
    main()
