#!/usr/bin/env python3
"""Cases for the crates checker and evaluator, written to crates/evaluator_cases/data from the papers
alone, and what the program evaluator_cases has to print of them.

The rules are those of page 01, "Kinds and meaning" and refusal 7; what single operations take and give
is in value_vectors.py, and how a text is read in syntax_vectors.py, both of which were written from the
papers too. All expressions here pass the refusals 1 to 6. Where page 01 leaves a point open: both sides
of `&&` and `||` are held to Boolean and a conditional's branches to nothing; a wrong count is a fault of
the call, after those of its arguments; the end is the text's length, spaces included.

What the papers say of single expressions (STATED) has to come out, or the script stops. So has of every
expression what page 01 demands: if it is accepted none of its features makes it fault; if it has no
conditional, no `&&` or `||` and no define's name, it is refused exactly if the worst feature makes it
fault or end in a wrong kind. A table of wrong readings (WRONG) has to be found out by the cases. Running it again writes
the same bytes.

Every file has for each expression a line of 32 bytes, the head and a line feed, a line of 16 bytes for
each name, and for each feature a line of 11 bytes, the feature's text and a line feed, a line of 24
bytes for each part of its values, and what the expression comes to and a line feed. All numbers are hex
digits, places from 0.
    hhhh bbb eee nn s w r ppp mm ff
The head's length; where the expression begins in the head and where it ends; how many names there are;
whether it stands in a define (0) or in the style (1); what it has to end in, a Boolean (0), a vec4 (1)
or any kind (2); the refusal, 7 or 0 for none, and its place; the set of its kinds, 00 for a refusal;
how many features there are.
    rr sss eee f kk
A name's row, 00 to 1f for properties and 20 to 2f for defines; where the name begins in the head and
where it ends; of a property its flags (1 may be absent, 2 may be null, added) and its type, of a define
0 and the set of its kinds.
    fff pp ooo
The length of the feature's text, how many parts its values have, and the length of the outcome.
    rr k i dddddddddddddddd
A name's row, the kind of its value, the index of the part, and the part: a double's pattern; for a
string eight digits each of its start and its end, in the feature's text (kind 4) or in the head, as a
define's literal (kind 8); for a Boolean as many of 1 for true or 0, and then the other; for Null 0.
Undefined has no part.

A kind is 0 Undefined, 1 Null, 2 Boolean, 3 Number, 4 String, 5 vec2, 6 vec3, 7 vec4; kind k is in a set
if bit k is. An outcome is - for a fault; else the digit of its kind and then its doubles, 16 digits
each, a Boolean's 0 or 1 having as many, or the string's bytes. Also a refused expression has features:
not all of them make it fault.
"""
import functools
import itertools
import random
import struct
import sys
from typing import NamedTuple

from case_files import write
from lexer_vectors import WORDS, distinct
from syntax_vectors import BINARY, FUNCTIONS, LEVELS, MEMBERS, Reading, judged, member_index
from value_vectors import BOOLEAN, CODE, EDGES, INFINITY, KINDS, NAN, NULL, NUMBER, NUMBER_OR_VECTOR, OPERATIONS, SIZE, STRING, UNDEFINED, VEC2, VEC3, VEC4, VECTORS
from value_vectors import Value, bits, bytes_of, chosen, color, kind_given, kinds_in, mask_of, near_one, node_set, num, on, short_decimal, small_whole, strictly_equal, truth, vector

SEED = 1
MOST_HEAD = 4095
MOST_PROPERTIES = 32
DEFINE, STYLE = range(2)
TO_BOOLEAN, TO_VEC4, TO_ANY = range(3)
ENDS = [mask_of([BOOLEAN]), mask_of([VEC4]), mask_of(KINDS)]
ABSENT, NONE = Value(UNDEFINED), Value(NULL)
TYPES = {BOOLEAN: b'Boolean', NUMBER: b'Number', STRING: b'String', VEC2: b'vec2', VEC3: b'vec3', VEC4: b'vec4'}
FLAGS = ['-', 'a', 'n', 'an']
LOGICAL = [b'&&', b'||']


# ---- cases

class Property(NamedTuple):
    name: bytes
    kind: int
    flags: str = '-'


def declared_kinds(declared):
    """Its type plus Undefined or Null by flag."""
    return mask_of([declared.kind] + [UNDEFINED] * ('a' in declared.flags) + [NULL] * ('n' in declared.flags))


class Case(NamedTuple):
    """Defines are pairs of a name and an expression. A feature has an item for each property: a value, or a string's bytes."""
    text: bytes
    wanted: int = TO_ANY
    scope: int = STYLE
    properties: tuple = ()
    defines: tuple = ()
    features: tuple = ()
    tail: bytes = b'\n'


class Placed(Reading):
    """A pick stands at its `.` or `[`."""

    def picked(self, part):
        while self.is_one_of([b'.', b'[']):
            sign = self.take()
            if self.is_sign(sign, b'.'):
                part = self.node('pick', self.member(), part)._replace(at=sign.at)
            else:
                part = self.node('pick', self.index(), part)._replace(at=sign.at)
                self.take_sign(b']')
        return part


@functools.lru_cache(maxsize=None)
def tree_of(text):
    refusal, place, _ = judged(text)
    assert refusal == 0, (text, refusal, place)
    reading = Placed(text)
    assert reading.grammar() is None
    return reading.tree


def nodes(node):
    return [node] + [inner for part in node.parts for inner in nodes(part)]


def variables(text):
    return [node.word[2:-1] for node in nodes(tree_of(text)) if node.form == 'leaf' and node.word[:1] == b'$']


def trimmed(case):
    """Without the names that neither it nor a define that it names mentions."""
    used = set(variables(case.text))
    defines = tuple(pair for pair in case.defines if pair[0] in used)
    used.update(name for _, text in defines for name in variables(text))
    stays = [p.name in used for p in case.properties]
    features = tuple(distinct(tuple(itertools.compress(feature, stays)) for feature in case.features))
    return case._replace(properties=tuple(itertools.compress(case.properties, stays)), defines=defines, features=features)


# ---- the head and the feature as texts

class Head:
    """Where the names and expressions of a case lie."""
    # No line of the style takes all kinds, but the checker may be asked.
    LINES = {(STYLE, TO_BOOLEAN): b'show\t', (STYLE, TO_VEC4): b'color\t', (STYLE, TO_ANY): b'cond\t'}

    def __init__(self, case):
        self.text = b''
        self.names = [self.put(b'prop\t', p.name, b'\t%s\t%s\n' % (TYPES[p.kind], p.flags.encode())) for p in case.properties]
        self.bases = []
        for name, text in case.defines:
            self.names.append(self.put(b'define\t', name, b'\t'))
            self.bases.append(self.put(b'', text, b'\n')[0])
        self.base, self.end = self.put(self.LINES.get((case.scope, case.wanted), b'define\tE\t'), case.text, case.tail)

    def put(self, before, part, after):
        start = len(self.text) + len(before)
        self.text += before + part + after
        return start, start + len(part)


def placed_feature(case, feature):
    """The feature's text, and the values of properties."""
    text, values = b'feat', {}
    for declared, item in zip(case.properties, feature, strict=True):
        if isinstance(item, bytes):
            values[declared.name] = Value(STRING, (False, len(text) + 2, len(text) + 2 + len(item)))
            text += b'\t=' + item
        else:
            values[declared.name] = item
        assert declared_kinds(declared) >> values[declared.name].kind & 1, (declared, item)
    return text, values


# ---- the rules of page 01

class Refused(Exception):
    """With 7, at a place."""


class Fault(Exception):
    """An operand, count or pick that is not taken."""


def operation(node):
    if node.form == 'unary':
        return '!' if node.word == b'!' else 'unary ' + node.word.decode()
    if node.form == 'pick':
        return '.' + 'xyzw'[int(node.word) if node.word.isdigit() else member_index(node.word)]
    return node.word.decode()


LITERALS = dict(zip(WORDS, [truth(True), truth(False), NONE, ABSENT, num(NAN), num(INFINITY)], strict=True))


def number_value(word):
    """The whole number of its digits made a binary64, then one division by ten to the number of digits after the point."""
    digits, _, places = word.partition(b'.')
    return float(int(digits + places)) / float(10 ** len(places))


class Rules:
    """What the papers say of one case."""

    def __init__(self, case):
        self.case = case
        self.head = Head(case)
        self.properties = {p.name: self.property_kinds(p) for p in case.properties}
        self.defines = {}
        self.texts = self.head.text, b''

    def answer(self):
        """The refusal and its place, or 0, 0 and the set; the sets of defines; what each feature gives."""
        for name, text in self.case.defines:
            self.defines[name] = self.kinds(tree_of(text), self.named(DEFINE, self.properties, self.defines))
        return self.checked() + (tuple(self.defines.values()), tuple(self.outcome(feature) for feature in self.case.features))

    def named(self, scope, properties, defines):
        """A define hides a property of its name; inside a define every name is a property."""
        return properties if scope == DEFINE else properties | defines

    # The checker

    def checked(self):
        try:
            found = self.kinds(tree_of(self.case.text), self.named(self.case.scope, self.properties, self.defines))
        except Refused as refusal:
            return 7, refusal.args[0], 0
        if self.is_wanted(found):
            return 0, 0, found
        return 7, self.end_place(), 0

    def is_wanted(self, found):
        return found & ~ENDS[self.case.wanted] == 0

    def end_place(self):
        return len(self.case.text)

    def property_kinds(self, declared):
        return declared_kinds(declared)

    def kinds(self, node, names):
        if node.form == 'leaf':
            return self.leaf_kinds(node.word, names)
        sets = self.part_kinds(node, names)
        if node.form == 'conditional':
            return self.conditional_kinds(node, *sets)
        return self.operation_kinds(node, sets)

    def leaf_kinds(self, word, names):
        """An undeclared name has Undefined alone."""
        if word[:1] == b'$':
            return names.get(word[2:-1], mask_of([UNDEFINED]))
        if word in LITERALS:
            return mask_of([LITERALS[word].kind])
        return mask_of([STRING if word[:1] in b'\'"' else NUMBER])

    def part_kinds(self, node, names):
        return [self.kinds(part, names) for part in node.parts]

    def conditional_kinds(self, node, test, first, second):
        if test & ~mask_of([BOOLEAN]):
            raise Refused(self.place(node))
        return first | second

    def operation_kinds(self, node, sets):
        """Refused exactly if some choice of kinds from its parts' sets would fault."""
        code = CODE[operation(node)]
        takes_count = any(len(kinds) == len(sets) for kinds in OPERATIONS[code].takes)
        found = node_set(code, sets) if takes_count else None
        if found is None:
            raise Refused(self.place(node))
        return found

    def place(self, node):
        """The operator, `?`, called word, or the `.` or `[` of a pick."""
        return node.at

    # The meaning

    def outcome(self, feature):
        text, values = placed_feature(self.case, feature)
        self.texts = self.head.text, text
        try:
            found = self.value(tree_of(self.case.text), self.named(self.case.scope, values, self.define_values(values)), self.head.base)
        except Fault:
            return b'-'
        return outcome_word(found, self.texts)

    def define_values(self, values):
        found = {}
        for (name, text), base in zip(self.case.defines, self.head.bases, strict=True):
            found[name] = self.value(tree_of(text), self.named(DEFINE, values, found), base)
        return found

    def value(self, node, names, base):
        if node.form == 'leaf':
            return self.leaf_value(node, names, base)
        if node.form == 'conditional':
            return self.conditional_value(node, names, base)
        if node.form == 'binary' and node.word in LOGICAL:
            return self.logical_value(node, names, base)
        return self.applied(operation(node), [self.value(part, names, base) for part in node.parts])

    def leaf_value(self, node, names, base):
        if node.word[:1] == b'$':
            return names.get(node.word[2:-1], ABSENT)
        if node.word in LITERALS:
            return LITERALS[node.word]
        if node.word[:1] in b'\'"':
            return Value(STRING, (True, base + node.at + 1, base + node.at + len(node.word) - 1))
        return num(number_value(node.word))

    def is_true(self, node, names, base):
        found = self.value(node, names, base)
        if found.kind != BOOLEAN:
            raise Fault
        return found.parts[0]

    def conditional_value(self, node, names, base):
        """Only the part it needs."""
        test, first, second = node.parts
        return self.value(first if self.is_true(test, names, base) else second, names, base)

    def logical_value(self, node, names, base):
        """Only the part it needs."""
        left, right = node.parts
        if self.is_true(left, names, base) == (node.word == b'||'):
            return truth(node.word == b'||')
        return truth(self.is_true(right, names, base))

    def applied(self, name, values):
        if kind_given(CODE[name], [v.kind for v in values]) is None:
            raise Fault
        if name in ('===', '!=='):
            return truth(self.equal(*values) == (name == '==='))
        if name == 'color':
            return Value(VEC4, tuple(color(*[self.string(v) if v.kind == STRING else v.parts[0] for v in values])))
        return on(name, *values)

    def string(self, value):
        return bytes_of(value, self.texts)

    def equal(self, a, b):
        return strictly_equal(a, b, self.texts)


def outcome_word(value, texts):
    if value.kind == STRING:
        return b'4' + bytes_of(value, texts)
    return b'%x' % value.kind + b''.join(b'%016x' % bits(x) for x in value.parts)


# ---- what the papers say of single expressions

LAP = Property(b'Lap', NUMBER, 'a')


def lap(text, wanted=TO_ANY, value=ABSENT):
    return Case(text, wanted, STYLE, (LAP,), (), ((value,),))


def height_case(text, wanted, value):
    """004: a define may refer to a property of its own name."""
    return Case(text, wanted, STYLE, (Property(b'Height', NUMBER),), ((b'Height', b'${Height}/2.0'),), ((num(value),),))


def new_height_case(text, wanted, value):
    defines = (b'NewHeight', b'clamp((${Height} - 0.5) / 2.0, 1.0, 255.0)'), (b'HeightColor', b'rgb(${Height}, ${Height}, ${Height})')
    return Case(text, wanted, STYLE, (Property(b'Height', NUMBER),), defines, ((num(value),),))


def temperature_case(value):
    return Case(b"(${Temperature} > 90) ? color('red') : color('white')", TO_VEC4, STYLE, (Property(b'Temperature', NUMBER),), (), ((num(value),),))


# A case with the place of its refusal, or with its value for the one feature.
STATED = [
    # page 01's examples
    (lap(b'1 + 2 * 3 === 7', TO_BOOLEAN), truth(True)), (lap(b'-7 % 3'), num(-1)),
    (lap(b'${Lap} === undefined', TO_BOOLEAN), truth(True)), (lap(b'${Lap} === undefined', TO_BOOLEAN, num(0.25)), truth(False)),
    (lap(b'${Lap} < 0.2', TO_BOOLEAN), 7), (lap(b'true || ${Lap} < 0.2', TO_BOOLEAN), 15), (lap(b'vec3(1.0) / 3'), vector(1 / 3, 1 / 3, 1 / 3)),
    (lap(b'3 / vec3(1.0)'), 2), (lap(b'vec2(1, 2).z'), 10), (lap(b"1 === '1'", TO_BOOLEAN), truth(False)),
    (lap(b'NaN === NaN', TO_BOOLEAN), truth(False)), (lap(b'floor(-0.5) === -1', TO_BOOLEAN), truth(True)), (lap(b'round(-2.5)'), num(-2)),
    (lap(b'false ? 1 : true ? 2 : 3'), num(2)), (lap(b"color('red') * vec4(0.5)", TO_VEC4), vector(0.5, 0, 0, 0.5)),
    (lap(b"color('#0F0', 0.5)", TO_VEC4), vector(0, 1, 0, 0.5)), (lap(b'true', TO_BOOLEAN), truth(True)), (lap(b"color('red')", TO_VEC4, num(0.25)), vector(1, 0, 0, 1)),
    (lap(b'1 - 2 - 3'), num(-4)), (lap(b'${Lap}', TO_BOOLEAN), 6), (lap(b'${Lap}'), ABSENT), (lap(b'${lap}', TO_ANY, num(1)), ABSENT),
    (Case(b'${Line} > 39', TO_BOOLEAN, STYLE, (Property(b'Line', NUMBER), LAP), (), ((num(39), num(0.25)),)), truth(False)),
    (Case(b'${Line} > 39', TO_BOOLEAN, STYLE, (Property(b'Line', NUMBER), LAP), (), ((num(40), ABSENT),)), truth(True)),
    # 004's
    (height_case(b'(${Height} >= 100.0)', TO_BOOLEAN, 150), truth(False)), (height_case(b'(${Height} >= 1.0)', TO_BOOLEAN, 150), truth(True)),
    (height_case(b'${Height}', TO_ANY, 150), num(75)), (new_height_case(b'${NewHeight} < 200.0', TO_BOOLEAN, 500), truth(False)),
    (new_height_case(b"color('#00FF00') * ${HeightColor}", TO_VEC4, 51), vector(0, 0.2, 0, 1)), (new_height_case(b'(${NewHeight} >= 50.0)', TO_BOOLEAN, 100.5), truth(True)),
    (temperature_case(90), vector(1, 1, 1, 1)), (temperature_case(91), vector(1, 0, 0, 1)),
    (Case(b"${ZipCode} === '19341'", TO_BOOLEAN, STYLE, (Property(b'ZipCode', STRING),), (), ((b'19341',),)), truth(True)),
    (Case(b"${ZipCode} === '19341'", TO_BOOLEAN, STYLE, (Property(b'ZipCode', NUMBER),), (), ((num(19341),),)), truth(False)),
    (lap(b'isNaN(0.0)', TO_BOOLEAN), truth(False)), (lap(b"color('red').x"), num(1)), (lap(b'vec4(1.0) === vec4(1.0)', TO_BOOLEAN), truth(True)),
    (lap(b'3 * vec3(1.0)'), vector(3, 3, 3)), (lap(b'vec2(1.0) * 3'), vector(3, 3)), (lap(b'"5" < 6'), 4), (lap(b'"name" + 10'), 7),
    (lap(b'vec3(1.0) === vec4(1.0)', TO_BOOLEAN), truth(False)), (lap(b'rgba(100, 255, 190, 0.25).a'), num(0.25)),
    # the points that page 01 leaves open
    (lap(b'true && 1'), 5), (lap(b'1 || true'), 2), (lap(b'false && 1'), 6), (lap(b"true ? 1 : 'a'"), num(1)), (lap(b'vec4(vec2(1), vec2(1))'), 0), (lap(b'vec3(vec2(1))'), 0),
    (lap(b'vec2()'), 0), (lap(b'min(1, vec3(1))'), 0), (lap(b'clamp(vec2(1), 0, vec2(1))'), 0), (lap(b'mix(vec2(1), 0, 0)'), 0), (lap(b"color('red', 1, 2)"), 0), (lap(b'min(1, -true)'), 7),
    (lap(b'min(-true)'), 4), (lap(b'0 === -0', TO_BOOLEAN), truth(True)), (lap(b'1   ', TO_BOOLEAN), 4), (lap(b'  1', TO_VEC4), 3), (lap(b'fract(-0)'), num(0.0)),
    (lap(b'fract(Infinity)'), num(NAN)), (lap(b'dot(-0, 1)'), num(-0.0)), (lap(b'-0'), num(-0.0)),
    (Case(b'${D}', TO_ANY, DEFINE, (), ((b'D', b'1'),), ((),)), ABSENT), (Case(b'${D}', TO_ANY, STYLE, (), ((b'D', b'1'),), ((),)), num(1)),
    (Case(b'-${D}', TO_ANY, DEFINE, (), ((b'D', b'1'),)), 0), (Case(b'-${D}', TO_ANY, STYLE, (Property(b'D', STRING),), ((b'D', b'1'),), ((b'x',),)), num(-1)),
]


def check_stated():
    for case, wanted in STATED:
        refusal, place, _, _, outcomes = Rules(case).answer()
        if isinstance(wanted, Value):
            assert refusal == 0 and outcomes == (outcome_word(wanted, (b'', b'')),), (case, refusal, place, outcomes)
        else:
            assert (refusal, place) == (7, wanted), (case, refusal, place)
    assert Rules(lap(b'true || ${Lap} < 0.2')).answer()[4] == (outcome_word(truth(True), (b'', b'')),)    # "though no strip faults"


# ---- wrong readings, each of which some case has to find out

def wrong(**changes):
    return type('WrongRules', (Rules,), changes)


def with_absent_numbers(self, node, sets):
    """An absent number as NaN where numbers are compared."""
    if node.form == 'binary' and node.word in LEVELS[3]:
        sets = [mask_of([NUMBER if k == UNDEFINED else k for k in kinds_in(found)]) for found in sets]
    return Rules.operation_kinds(self, node, sets)


def order_of_absent(self, name, values):
    if name.encode() in LEVELS[3]:
        values = [num(NAN) if v.kind == UNDEFINED else v for v in values]
    return Rules.applied(self, name, values)


def from_the_right(self, node, names):
    return [self.kinds(part, names) for part in reversed(node.parts)][::-1]


def itself_first(self, node, names):
    """A node that is refused by its parts' sets, as far as these have any, before its parts are."""
    sets = []
    first = None
    for part in node.parts:
        try:
            sets.append(self.kinds(part, names))
        except Refused as refusal:
            sets.append(mask_of([NUMBER]))
            first = first or refusal
    if first and node.form != 'conditional':
        self.operation_kinds(node, sets)
    if first:
        raise first
    return sets


def leftmost(self, node, names):
    """The leftmost by place, not the first by parts."""
    places = []
    sets = []
    for part in node.parts:
        try:
            sets.append(self.kinds(part, names))
        except Refused as refusal:
            places.append(refusal.args[0])
    if places:
        raise Refused(min(places + [node.at]))
    return sets


def count_first(self, node, names):
    if node.form == 'call' and not any(len(kinds) == len(node.parts) for kinds in OPERATIONS[CODE[operation(node)]].takes):
        raise Refused(node.at)
    return Rules.part_kinds(self, node, names)


def needed_parts(self, node, names):
    """A branch that is never worked out, by its literal test, is not checked."""
    parts = list(node.parts)
    test = parts[0].word if parts else b''
    if node.form == 'conditional' and test in (b'true', b'false'):
        parts = [parts[0]] + [parts[1 if test == b'true' else 2]] * 2
    if node.form == 'binary' and node.word in LOGICAL and test == (b'true' if node.word == b'||' else b'false'):
        parts = [parts[0]] * 2
    return [self.kinds(part, names) for part in parts]


def known_branch(self, node, names):
    """Of a conditional with a literal test the other branch is checked, but its kinds are left out."""
    sets = Rules.part_kinds(self, node, names)
    if node.form == 'conditional' and node.parts[0].word in (b'true', b'false'):
        taken = sets[1] if node.parts[0].word == b'true' else sets[2]
        return [sets[0], taken, taken]
    return sets


def free_logic(self, node, sets):
    """Only the left side of `&&` and `||` is held to Boolean."""
    if node.form == 'binary' and node.word in LOGICAL:
        sets = [sets[0], mask_of([BOOLEAN])]
    return Rules.operation_kinds(self, node, sets)


def alike_branches(self, node, test, first, second):
    if first != second:
        raise Refused(node.at)
    return Rules.conditional_kinds(self, node, test, first, second)


def equality_of_one_kind(self, node, sets):
    if node.form == 'binary' and node.word in LEVELS[2] and not sets[0] & sets[1]:
        raise Refused(node.at)
    return Rules.operation_kinds(self, node, sets)


def only_if_all_fault(self, node, sets):
    """Refused if all choices fault, not if some do."""
    given = [kind_given(CODE[operation(node)], choice) for choice in itertools.product(*map(kinds_in, sets))]
    if all(kind is None for kind in given):
        raise Refused(node.at)
    return mask_of([kind for kind in given if kind is not None])


def at_the_member(self, node):
    return self.case.text.index(node.word, node.at) if node.form == 'pick' else node.at


def at_the_bracket(self, node):
    return self.case.text.index(b'(', node.at) if node.form == 'call' else node.at


def at_the_front(self, node):
    """Where the node's text begins, brackets aside."""
    while node.form in ('binary', 'conditional', 'pick'):
        node = node.parts[0]
    return node.at


def at_the_colon(self, node):
    return self.case.text.index(b':', node.at) if node.form == 'conditional' else node.at


def strict_logic(self, node, names, base):
    left, right = [self.is_true(part, names, base) for part in node.parts]
    return truth(left or right if node.word == b'||' else left and right)


def strict_conditional(self, node, names, base):
    values = [self.value(part, names, base) for part in node.parts]
    if values[0].kind != BOOLEAN:
        raise Fault
    return values[1 if values[0].parts[0] else 2]


def loose_logic(self, node, names, base):
    """The right side as it is, whatever its kind."""
    left, right = node.parts
    if self.is_true(left, names, base) == (node.word == b'||'):
        return truth(node.word == b'||')
    return self.value(right, names, base)


def exchanged_branches(self, node, names, base):
    test, first, second = node.parts
    return self.value(second if self.is_true(test, names, base) else first, names, base)


def truthy(self, node, names, base):
    """What is no Boolean is true, but for Undefined and Null."""
    found = self.value(node, names, base)
    return found.parts[0] if found.kind == BOOLEAN else found.kind not in (UNDEFINED, NULL)


def from_the_expression(self, node, names, base):
    return Rules.leaf_value(self, node, names, 0)


def from_one_base(self, node, names, base):
    """The places of a define's literals counted from the style's expression."""
    return Rules.leaf_value(self, node, names, self.head.base)


def in_one_text(self, value):
    return bytes_of(value, (self.texts[1],) * 2)


def swapped_texts(self, a, b):
    return strictly_equal(a, b, self.texts[::-1])


def equal_places(self, a, b):
    return a.parts[1:] == b.parts[1:] if a.kind == b.kind == STRING else strictly_equal(a, b, self.texts)


def equal_lengths(self, a, b):
    return len(self.string(a)) == len(self.string(b)) if a.kind == b.kind == STRING else strictly_equal(a, b, self.texts)


def equal_patterns(self, a, b):
    return list(map(bits, a.parts)) == list(map(bits, b.parts)) if a.kind == b.kind != STRING else strictly_equal(a, b, self.texts)


def loosely_equal(self, a, b):
    return {a.kind, b.kind} == {UNDEFINED, NULL} or strictly_equal(a, b, self.texts)


def single(value):
    """In single precision."""
    if value.kind not in NUMBER_OR_VECTOR:
        return value
    return Value(value.kind, tuple(x if x != x or abs(x) > 3e38 else struct.unpack('>f', struct.pack('>f', x))[0] for x in value.parts))


def negated_from_zero(self, name, values):
    if name == 'unary -' and values[0].kind == NUMBER:
        return num(0.0 - values[0].parts[0])
    return Rules.applied(self, name, values)


def right_to_left(self, name, values):
    return Rules.applied(self, name, values[::-1])


def numbers_from_null(self, name, values):
    """Null as 0, as in ECMAScript."""
    if name not in ('===', '!=='):
        values = [num(0) if v.kind == NULL else v for v in values]
    return Rules.applied(self, name, values)


def flagged(change):
    return lambda self, declared: declared_kinds(declared._replace(flags=change(declared.flags)))


def in_scopes(define, style):
    """What a name may be in a define and in the style, of the properties and the defines before."""
    return wrong(named=lambda self, scope, properties, defines: (define if scope == DEFINE else style)(properties, defines))


def also_known_as(others):
    """Names that are found by others too, if these are not declared."""
    def named(self, scope, properties, defines):
        found = Rules.named(self, scope, properties, defines)
        return {other: v for name, v in found.items() for other in others(name)} | found
    return named


def undeclared(kinds):
    return lambda self, word, names: names.get(word[2:-1], mask_of(kinds)) if word[:1] == b'$' else Rules.leaf_kinds(self, word, names)


def null_if_undeclared(self, node, names, base):
    return names.get(node.word[2:-1], NONE) if node.word[:1] == b'$' else Rules.leaf_value(self, node, names, base)


WRONG = {
    'an absent number compares as NaN': wrong(operation_kinds=with_absent_numbers, applied=order_of_absent),
    'an absent number compares as NaN when it is worked out': wrong(applied=order_of_absent),
    'null is 0': wrong(applied=numbers_from_null),
    'a define sees another define': in_scopes(lambda properties, defines: properties | defines, lambda properties, defines: properties | defines),
    'a define sees another define but not before its property': in_scopes(lambda properties, defines: defines | properties, lambda properties, defines: properties | defines),
    'a property hides a define': in_scopes(lambda properties, defines: properties, lambda properties, defines: defines | properties),
    'no define is seen': in_scopes(lambda properties, defines: properties, lambda properties, defines: properties),
    'in the style a name is a define': in_scopes(lambda properties, defines: properties, lambda properties, defines: defines),
    'a define of any kind': in_scopes(lambda properties, defines: properties, lambda properties,
    defines: properties | {name: d if isinstance(d, Value) else mask_of(KINDS) for name, d in defines.items()}),
    'names in any case': wrong(named=also_known_as(lambda name: [name.lower(), name.upper()])),
    'names by their first letter': wrong(named=also_known_as(lambda name: [name[:1]])),
    'names with one letter more': wrong(named=also_known_as(lambda name: [name + b'1', name + b'_'])),
    'names of 63 letters at most': wrong(named=also_known_as(lambda name: [name[:63] + b'K'])),
    'an undeclared name is Null': wrong(leaf_kinds=undeclared([NULL])),
    'an undeclared name may be anything': wrong(leaf_kinds=undeclared(KINDS)),
    'an undeclared name is null when it is worked out': wrong(leaf_value=null_if_undeclared),
    'no flags': wrong(property_kinds=flagged(lambda flags: '-')),
    'the flag n not seen': wrong(property_kinds=flagged(lambda flags: flags.replace('n', ''))),
    'the flag a not seen': wrong(property_kinds=flagged(lambda flags: flags.replace('a', ''))),
    'the flags exchanged': wrong(property_kinds=flagged(lambda flags: {'a': 'n', 'n': 'a'}.get(flags, flags))),
    'the unused branch is not checked': wrong(part_kinds=needed_parts),
    'the unused branch has no kinds': wrong(part_kinds=known_branch),
    'the test of a conditional not held to Boolean': wrong(conditional_kinds=lambda self, node, test, first, second: first | second),
    'the test of a conditional may be Boolean': wrong(conditional_kinds=lambda self, node, test, first, second: Rules.conditional_kinds(self, node, test & mask_of([BOOLEAN]) or test, first, second)),
    'a conditional has its first branch\'s kinds': wrong(conditional_kinds=lambda self, node, test, first, second: Rules.conditional_kinds(self, node, test, first, first)),
    'a conditional has its second branch\'s kinds': wrong(conditional_kinds=lambda self, node, test, first, second: Rules.conditional_kinds(self, node, test, second, second)),
    'branches of one kind': wrong(conditional_kinds=alike_branches),
    'the right side of && and || free': wrong(operation_kinds=free_logic),
    'equality of one kind': wrong(operation_kinds=equality_of_one_kind),
    'refused only if all choices fault': wrong(operation_kinds=only_if_all_fault),
    'the first refusal from the right': wrong(part_kinds=from_the_right),
    'the node itself before its parts': wrong(part_kinds=itself_first),
    'the leftmost refusal': wrong(part_kinds=leftmost),
    'the count before the arguments': wrong(part_kinds=count_first),
    'place of a pick at the member': wrong(place=at_the_member),
    'place of a call at the bracket': wrong(place=at_the_bracket),
    'place of a conditional at the colon': wrong(place=at_the_colon),
    'place of a node at its front': wrong(place=at_the_front),
    'place of a refusal in the head': wrong(place=lambda self, node: self.head.base + node.at),
    'place of a wrong result at 0': wrong(end_place=lambda self: 0),
    'place of a wrong result at the root': wrong(end_place=lambda self: tree_of(self.case.text).at),
    'place of a wrong result without spaces': wrong(end_place=lambda self: len(self.case.text.rstrip(b' '))),
    'place of a wrong result in the head': wrong(end_place=lambda self: self.head.end),
    'a result that may be right': wrong(is_wanted=lambda self, found: found & ENDS[self.case.wanted] != 0),
    'any result': wrong(is_wanted=lambda self, found: True),
    'an absent result': wrong(is_wanted=lambda self, found: Rules.is_wanted(self, found & ~mask_of([UNDEFINED]) or found)),
    '|| and && need both sides': wrong(logical_value=strict_logic),
    'a conditional needs both branches': wrong(conditional_value=strict_conditional),
    'the right side of && and || as it is': wrong(logical_value=loose_logic),
    'the branches exchanged': wrong(conditional_value=exchanged_branches),
    'any value is true or false': wrong(is_true=truthy),
    'literals counted from the expression': wrong(leaf_value=from_the_expression),
    'all literals counted from one base': wrong(leaf_value=from_one_base),
    'all strings in the feature': wrong(string=in_one_text, equal=lambda self, a, b: strictly_equal(a, b, (self.texts[1],) * 2)),
    'all strings in the style': wrong(equal=lambda self, a, b: strictly_equal(a, b, (self.texts[0],) * 2)),
    'the texts exchanged': wrong(equal=swapped_texts),
    'strings by place': wrong(equal=equal_places),
    'strings by length': wrong(equal=equal_lengths),
    'equality by patterns': wrong(equal=equal_patterns),
    'undefined equals null': wrong(equal=loosely_equal),
    'single precision': wrong(applied=lambda self, name, values: single(Rules.applied(self, name, values))),
    'literals in single precision': wrong(leaf_value=lambda self, node, names, base: single(Rules.leaf_value(self, node, names, base))),
    '- as a difference from 0': wrong(applied=negated_from_zero),
    'operands exchanged': wrong(applied=right_to_left),
}


def check_telling(answers):
    """A wrong reading may fault in a define, or refuse it; then it differs from the right one all the same."""
    ordered = sorted(answers, key=lambda case: len(case.text))
    for name, rules in WRONG.items():
        assert any(answer_of(case, rules) != answers[case] for case in ordered), name


def answer_of(case, rules):
    try:
        return rules(case).answer()
    except (Refused, Fault):
        return None


# ---- expressions of a kind

SAMPLES = {
    UNDEFINED: b'undefined', NULL: b'null', BOOLEAN: b'true', NUMBER: b'1.5', STRING: b"'a'", VEC2: b'vec2(2, 3)', VEC3: b'vec3(4, 5, 6)', VEC4: b'vec4(0.5, 7, 8, 9)',
}
NAMES = {BOOLEAN: b'b', NUMBER: b'n', STRING: b's', VEC2: b'v2', VEC3: b'v3', VEC4: b'v4'}
ITEMS = {BOOLEAN: truth(True), NUMBER: num(-2.5), STRING: b'a', VEC2: vector(0.25, -3), VEC3: vector(1, 0.5, -0.0), VEC4: vector(0.1, 0.2, 0.3, 1)}


def declared(kind, flags='-'):
    return Property(NAMES[kind], kind, flags)


def lacking(flags):
    """The values that a property may have beside those of its type."""
    return [ABSENT] * ('a' in flags) + [NONE] * ('n' in flags)


def of_property(text, kind, flags, wanted=TO_ANY):
    """With one property, present and in each way that it may lack."""
    features = tuple((item,) for item in [ITEMS[kind]] + lacking(flags))
    return Case(text, wanted, STYLE, (declared(kind, flags),), (), features)


def plain(text, wanted=TO_ANY, scope=STYLE):
    """Without names, so that all features are alike."""
    return Case(text, wanted, scope, (), (), ((),))


def example_cases(source):
    return [case for case, _ in STATED]


def literal_cases(source):
    numbers = b'0 1 7 10 0.5 0.1 0.2 0.3 1.0 100 255 0.25 12.75 4.35 1.005 5000000.25 123456789012345 999999999999999 0.00000000000001 12345678901234.5'.split()
    numbers += b'0.1234567890123 33.333333333333 9007199254740.99'.split()
    strings = [b"''", b'""', b"'a'", b'"a"', b"'it\\'", b'"\'"', b"'${n}'", b"'\xc3\xa9\x80\xff'", b"'true'", b"' '", b"'" + b'x' * 300 + b"'", b"'a' ", b" 'a'"]
    words = list(WORDS) + numbers + strings
    cases = [plain(word, wanted, scope) for word in words for wanted, scope in ((TO_ANY, DEFINE), (TO_ANY, STYLE))]
    cases += [plain(word, wanted) for word in list(WORDS) + numbers[:2] + strings[:3] for wanted in (TO_BOOLEAN, TO_VEC4)]
    return cases + [plain(b'(%s)' % word) for word in WORDS] + [plain(b'-' + word) for word in numbers] + [plain(b'%s === %s' % (word, word)) for word in words]


def binary_text(operator, left, right):
    return b'%s %s %s' % (left, operator, right)


def operator_cases(source):
    """Every operator with every kind of operand, and with every property beside an operand that would fit."""
    cases = [plain(sign + SAMPLES[kind]) for sign in (b'+', b'-', b'!') for kind in KINDS]
    cases += [plain(binary_text(operator, SAMPLES[a], varied(b, 1))) for operator in BINARY for a in KINDS for b in KINDS]
    for kind, flags in itertools.product(TYPES, FLAGS):
        name, fitting = b'${%s}' % NAMES[kind], SAMPLES[kind]
        cases += [of_property(sign + name, kind, flags) for sign in (b'+', b'-', b'!')]
        cases += [of_property(binary_text(operator, name, fitting), kind, flags) for operator in BINARY if flags != 'an']
        cases += [of_property(binary_text(operator, fitting, name), kind, flags) for operator in BINARY if flags != 'n']
        cases += [of_property(binary_text(operator, name, word), kind, flags, TO_BOOLEAN) for operator in (b'===', b'!==') for word in (b'undefined', b'null', b'true', b"''", b'0')]
    for operator in BINARY:
        cases += [plain(text) for text in (binary_text(operator, b'  1', b' 2  '), b'(1)%s(2)' % operator, b'1%s2' % operator, b'((true) %s ((false)))' % operator, b'1 %s ${u}' % operator)]
    return cases


def call_text(name, arguments):
    return name + b'(' + b', '.join(arguments) + b')'


def varied(kind, i):
    """A sample of the kind, another for each i."""
    if kind not in NUMBER_OR_VECTOR:
        return SAMPLES[kind]
    parts = [b'%d.%d' % (i + 1, 3 * j + 1) for j in range(SIZE[kind])]
    return parts[0] if kind == NUMBER else b'vec%d(%s)' % (len(parts), b', '.join(parts))


def color_calls():
    firsts = [b"'red'", b"'#0F0'", b"('BLUE')", b'"#13293d"']
    rests = [[], [b'0.5'], [b'true'], [b'1', b'2'], [b'1', b'2', b'3'], [b'1'] * 4, [b'1'] * 9, [b'undefined'], [b'-true'], [b"'red'"], [b'${u}', b'1'], [b'vec4(1)']]
    texts = [b'color()'] + [call_text(b'color', [first] + rest) for first in firsts for rest in rests]
    return texts + [text + b'.a' for text in texts[:4]]


def function_cases(source):
    """Every function with all that it takes; with one argument of another kind; with too few and too many."""
    cases = [plain(text, wanted) for text in color_calls() for wanted in (TO_VEC4, TO_ANY)]
    for name in FUNCTIONS:
        if name == b'color':
            continue
        takes = list(OPERATIONS[CODE[name.decode()]].takes)
        for kinds in takes:
            samples = [varied(kind, i) for i, kind in enumerate(kinds)]
            cases.append(plain(call_text(name, samples)))
            cases += [plain(call_text(name, samples[:i] + [varied(other, i)] + samples[i + 1:])) for i in range(len(kinds)) for other in KINDS if other != kinds[i]]
            cases += [plain(call_text(name, samples + [b'1'])), plain(call_text(name, samples[:-1]))]
        for count in range(7):
            cases += [plain(call_text(name, [SAMPLES[kind]] * count)) for kind in (NUMBER, VEC3, BOOLEAN, VEC2)]
        for flags in FLAGS:
            cases += [of_property(call_text(name, [b'${n}'] * len(kinds)), NUMBER, flags) for kinds in takes if set(kinds) == {NUMBER}]
            cases += [of_property(call_text(name, [b'${v3}'] * len(kinds)), VEC3, flags) for kinds in takes if set(kinds) == {VEC3}]
        cases += [plain(b' %s ( %s )' % (name, b' , '.join(SAMPLES[kind] for kind in takes[0]))), plain(b'min(1,' * 3 + name + b'(true)' + b')' * 3)]
    return cases + [plain(b'min(' + b'1,' * n + b'1)') for n in (5, 30, 255, 400)]


def pick_cases(source):
    signs = [b'.' + member for member in MEMBERS] + [b'[%d]' % i for i in range(4)]
    cases = [plain(SAMPLES[kind] + sign) for kind in KINDS for sign in signs]
    cases += [of_property(b'${%s}%s' % (NAMES[kind], sign), kind, flags) for kind in (NUMBER,) + VECTORS for flags in FLAGS for sign in (b'.x', b'.g', b'[2]', b'.w')]
    cases += [plain(text) for text in (b'vec2(1, 2) . z', b'vec2(1, 2) [ 2 ]', b'(vec2(1, 2)).z', b'vec4(1).x.x', b'vec4(1)[0][0]', b'-vec3(1, 2, 3).z', b'(-vec3(1, 2, 3)).y',
                                       b'!vec2(1).x', b'${u}.x', b'${u}[0]')]
    return cases + [plain(b'%s%s' % (text, sign)) for text in (b"color('red')", b'(true ? vec2(1, 2) : vec3(3, 4, 5))', b'(true ? vec4(1) : 1)', b'cross(vec3(1, 0, 0), vec3(0, 1, 0))')
                    for sign in signs[:4] + signs[8:]]


FLAG = Property(b't', BOOLEAN)
BOTH = ((truth(True),), (truth(False),))


def by_flag(text, wanted=TO_ANY, scope=STYLE):
    """For a flag that is true and one that is false."""
    return Case(text, wanted, scope, (FLAG,), (), BOTH)


def conditional_cases(source):
    cases = [plain(b'%s ? 1 : 2' % SAMPLES[kind]) for kind in KINDS] + [of_property(b'${%s} ? 1 : 2' % NAMES[kind], kind, flags) for kind in TYPES for flags in FLAGS]
    cases += [by_flag(b'${t} ? %s : %s' % (SAMPLES[a], varied(b, 0))) for a in KINDS for b in KINDS]
    cases += [by_flag(b'${t} ? %s : %s' % (SAMPLES[a], SAMPLES[b]), wanted)
              for a, b in ((BOOLEAN, BOOLEAN), (VEC4, VEC4), (BOOLEAN, VEC4), (VEC4, BOOLEAN), (BOOLEAN, UNDEFINED), (NULL, VEC4)) for wanted in (TO_BOOLEAN, TO_VEC4)]
    nested = [b'${t} ? ${t} ? 1 : 2 : 3', b'${t} ? 1 : ${t} ? 2 : 3', b'(${t} ? ${t} : false) ? 1 : 2', b'${t} ? (!${t} ? 1 : true) : (${t} ? null : vec2(1))',
              b'(${t} ? 1 : 2) + 3', b'-(${t} ? 1 : true)', b'(${t} ? 1 : vec2(1)) * 2', b'(${t} ? 1 : vec2(1)) * vec2(2)', b'(${t} ? 1 : vec2(1)) + 2',
              b'(${t} ? vec2(1) : vec3(1)) * 2', b'(${t} ? vec2(1) : vec3(2)) * (${t} ? 1 : 2)', b'min(${t} ? 1 : vec2(1), 1)', b'abs(${t} ? -1 : vec2(-1))',
              b'vec4(${t} ? 1 : vec4(2))', b'vec3(${t} ? 1 : vec2(2), ${t} ? vec2(1) : 2)', b'(${t} ? vec3(1) : vec4(1)).z', b'(${t} ? vec2(1) : vec3(1)).z',
              b'(${t} ? 1 : 2) ? 3 : 4', b"(${t} ? 'a' : 1) === (${t} ? 1 : 'a')", b'(${t} ? undefined : null) === null', b'${t} ? 1 : -true', b'${t} ? -true : 1',
              b'-true ? 1 : 2', b'${t} ? -true : +false', b'1 ? -true : 2', b'1 ? 2 : -true', b'!${t} ? 1 : 2', b'(${t} || false) ? 1 : 2', b'${t} && true ? 1 : 2',
              b'${t} === true ? 1 : 2', b'${u} ? 1 : 2', b'  ${t}   ?  1  :  2 ', b'1    ?  1  :  2 ', b'true ? false ? 1 : 2 : 3', b'true ? 1 : false ? 2 : true',
              b'dot(${t} ? 1 : vec2(1), ${t} ? 1 : vec2(1))', b'clamp(${t} ? 1 : vec2(1), 0, 2)', b'clamp(${t} ? 1 : vec2(1), 0, ${t} ? 2 : vec2(1))',
              b'rgba(1, 2, 3, ${t} ? 0.5 : 1.0)']
    return cases + [by_flag(text) for text in nested] + [by_flag(text, TO_VEC4) for text in nested[-1:]]


def result_cases(source):
    """What an expression ends in, with spaces round it."""
    texts = [SAMPLES[kind] for kind in KINDS] + [b'1 < 2', b'true ? true : 1', b'true ? vec4(1) : undefined', b'true ? vec4(1) : vec4(2)', b'true && false']
    texts += [b'${u}', b'-1', b'vec4(1) * 2', b'!true', b'color()', b'vec4(1).x', b'(true)']
    cases = [plain(b' ' * lead + text + b' ' * trail, wanted, scope) for text in texts for wanted in (TO_BOOLEAN, TO_VEC4, TO_ANY)
             for lead, trail, scope in ((0, 0, STYLE), (0, 1, DEFINE), (3, 4, STYLE))]
    cases += [of_property(b'${%s}%s' % (NAMES[kind], b' ' * n), kind, flags, wanted) for kind in TYPES for flags in FLAGS for wanted, n in ((TO_BOOLEAN, 0), (TO_VEC4, 1), (TO_ANY, 0))]
    return cases + [plain(b'1' + b' ' * 1023, TO_BOOLEAN), plain(b' ' * 1020 + b'true', TO_BOOLEAN), plain(b' ' * 1023 + b'1', TO_VEC4)]


# Expressions that are refused, each in its own way, and one that is not.
REFUSED = [b"(1 < 'a')", b'(-true)', b'min(1)', b"'s'.x", b'(1 ? 2 : 3)', b'(true && 1)', b'vec2()[3]', b'1']


def order_cases(source):
    """Several faults at once."""
    cases = [plain(form % pair) for pair in itertools.product(REFUSED, REFUSED) for form in (b'%s + %s', b'min(%s, %s)', b'%s || %s')]
    cases += [plain(form % row) for row in itertools.product(REFUSED[:4] + REFUSED[-1:], repeat=3) for form in (b'%s ? %s : %s', b'clamp(%s, %s, %s)')]
    around = [b'-%s', b'!%s', b'%s.x', b'%s[3]', b'isNaN(%s)', b'vec2(%s, 1, 2, 3, 4)', b'true ? %s : 1', b'true ? 1 : %s', b'%s ? 1 : 2', b'1 === %s', b'%s < 2 < 3', b'rgba(%s, 1)']
    cases += [plain(form % part) for part in REFUSED for form in around]
    cases += [plain(b' + '.join(row)) for row in itertools.permutations([b'true', b'1', b"'a'", b'vec2(1)'], 3)]
    cases += [plain(text) for text in (b'1 < 2 < 3', b'1 === 2 === 3', b'1 < 2 === true', b'1 - 2 * true', b'true - 2 * true')]
    return cases + [plain(part + b'   ', wanted) for part in REFUSED for wanted in (TO_BOOLEAN, TO_VEC4)]


def lazy_cases(source):
    """What is not needed may fault."""
    parts = [b'true', b'false', b'${t}', b'!${t}', b'1', b'(1 < ${u})', b'${u}', b"'a'"]
    cases = [by_flag(form % pair) for pair in itertools.product(parts, parts) for form in (b'%s || %s', b'%s && %s')]
    cases += [by_flag(b'%s ? %s : %s' % row) for row in itertools.product(parts[:3] + parts[5:6], parts[2:6], parts[2:6])]
    texts = [b'true || true || -true', b'(true || -true) || -true', b'false || (true || -true)', b'false && -true || true', b'true || -true && false', b'true && (true || -true)',
             b'(false && -true) === false', b'true ? (true || -true) : -true', b'${u} === undefined || ${u} < 1', b'${u} !== undefined && ${u} < 1',
             b'${t} ? ${u} === undefined : ${u} < 1', b'!(${t} && ${u})', b'min(1, ${t} ? 2 : ${u})', b'(${t} ? vec3(1) : vec2(1)).z', b'(${t} ? 1 : null) + 1']
    cases += [by_flag(text) for text in texts]
    guards = [b'${n} !== undefined && ${n} < 1', b'${n} === undefined || ${n} < 1', b'${n} === undefined ? false : ${n} < 1', b'isNaN(${n}) || true', b'${n} < 1 || ${n} >= 1',
              b'(${n} === null ? 0 : ${n}) + 1', b'true || ${n} < 0.2']
    return cases + [of_property(text, NUMBER, flags) for text in guards for flags in FLAGS]


# ---- names

WIDE = b'N' * 64


def name_cases(source):
    number_a, boolean_b = Property(b'a', NUMBER), Property(b'b', BOOLEAN, 'a')
    features = ((num(3), truth(True)), (num(-1), ABSENT))
    defines = (b'a', b'${a} > 1'), (b'c', b'${b}'), (b'd', b'${c}'), (b'e', b"'text'"), (b'f', b'vec2(${a})'), (b'g', b'${g}')
    texts = [b'${a}', b'${b}', b'${c}', b'${d}', b'${e}', b'${f}', b'${g}', b'${h}', b'-${a}', b'!${a}', b'!${b}', b'!${c}', b'${c} === ${b}', b'${d} === undefined', b'${f} * 2',
             b'${f}.y', b'${a} && true', b'${a} ? ${f} : ${e}', b'${A}', b'${aa}', b'${a_}', b'${e} === "text"', b'${f}[0] + ${f}[1]', b'${c} && ${a}', b'-${g}', b'-${d}',
             b'min(${a}, 1)', b'${a} + ${a}', b'${a} === ${a}', b'${e}.x', b'${a}   ', b'1 + ${a} * 2']
    cases = [Case(text, wanted, scope, (number_a, boolean_b), defines, features) for text in texts for wanted, scope in ((TO_ANY, STYLE), (TO_ANY, DEFINE), (TO_BOOLEAN, STYLE))]
    odd = [b'true', b'null', b'0', b'_', b'1a', b'NaN', b'x', b'min', b'vec2', WIDE, WIDE[1:], WIDE[:-1] + b'M', b'M' + WIDE[1:], b'undefined', b'A', b'Z9']
    properties = tuple(Property(name, NUMBER) for name in odd)
    hidden = tuple((name, b'-${%s}' % name) for name in odd[:8] + odd[10:14])
    feature = tuple(num(i + 1) for i in range(len(odd)))
    fours = [b'vec4(%s)' % b', '.join(b'${%s}' % name for name in odd[i:i + 4]) for i in range(0, len(odd), 4)]
    alone = [b'${%s}' % name for name in (b'tru', b'N', b'TRUE', b'00', b'a1', WIDE[2:], WIDE[:-1] + b'K', b'__')]
    cases += [Case(text, TO_ANY, STYLE, properties, (), (feature,)) for text in fours + alone]
    return cases + [Case(text, TO_ANY, scope, properties, hidden, (feature,)) for text in fours + alone[:1] for scope in (STYLE, DEFINE)] + full_cases()


def full_cases():
    """32 properties and 16 defines, the defines hiding some of the properties."""
    kinds = list(TYPES)
    properties = tuple(Property(b'p%d' % i, kinds[i % 6], FLAGS[i // 6 % 4]) for i in range(MOST_PROPERTIES))
    feature = tuple(lacking(p.flags)[-1] if lacking(p.flags) and i % 2 else item_for(p, i) for i, p in enumerate(properties))
    defines = tuple((b'p%d' % (i * 3) if i % 2 else b'd%d' % i, b'%d' % i if i % 3 else b'${p%d}' % (i + 5)) for i in range(16))
    cases = [Case(b'${%s}' % name, TO_ANY, scope, properties, defines, (feature,)) for name in (b'p0', b'p3', b'p31', b'p45', b'd0', b'd14', b'p32') for scope in (STYLE, DEFINE)]
    return cases + [Case(b'${p31} === ${p7} || ${d14} !== ${p45}', TO_BOOLEAN, STYLE, properties, defines, (feature,))] + sum_cases()


def sum_cases():
    """Sums over all names, each with a weight of its own."""
    properties = tuple(Property(b'p%d' % i, NUMBER) for i in range(MOST_PROPERTIES))
    defines = tuple((b'd%d' % i if i % 3 else b'p%d' % (2 * i), b'${p%d} / %d' % (31 - i, i + 2)) for i in range(16))
    names = [p.name for p in properties] + [name for name, _ in defines if name[:1] == b'd']
    features = tuple(tuple(num(first + i * i * step) for i in range(MOST_PROPERTIES)) for first, step in ((1, 1), (0.1, -0.7)))
    terms = [b'%d * ${%s}' % (i + 1, name) for i, name in enumerate(names)]
    return [Case(b' + '.join(words), TO_ANY, scope, properties, defines, features) for words, scope in ((terms, STYLE), (terms[::-1], STYLE), (terms, DEFINE), (terms[:32], DEFINE))]


def item_for(declared, i):
    """A value of its type, another for each i."""
    if declared.kind == BOOLEAN:
        return truth(i % 2)
    if declared.kind == STRING:
        return b'text %d' % i
    return Value(declared.kind, tuple(i + j / 4 for j in range(SIZE[declared.kind])))


# ---- strings

def string_cases(source):
    """From the feature, literals, and literals of defines."""
    properties = Property(b's', STRING), Property(b't', STRING, 'an')
    features = (b'abc', b'abc'), (b'abc', b'ab'), (b'', ABSENT), (b'ab', NONE), (b'\xc3\xa9', b'\xc3\xa9'), (b'x' * 255, b'x' * 254 + b'y'), (b'null', b"'abc'"), (b'ABC', b'')
    defines = (b'd', b"'abc'"), (b'e', b"1 < 2 ? 'ab' : 'abc'"), (b'f', b'${s}'), (b'g', b'""'), (b'h', b"(${t} === 'ab' ? ${s} : 'abc')")
    names = [b'${s}', b'${t}', b'${d}', b'${e}', b'${f}', b'${g}', b'${h}', b"'abc'", b'"ab"', b"''", b'undefined', b'null']
    cases = [Case(name, TO_ANY, STYLE, properties, defines, features) for name in names]
    for i, (a, b) in enumerate(itertools.product(names, names)):
        some = tuple(features[(i + j) % len(features)] for j in (0, 3, 5))
        cases.append(trimmed(Case(b'%s %s %s' % (a, b'!==' if i % 5 == 0 else b'===', b), TO_BOOLEAN, STYLE, properties, defines, some)))
    cases += [trimmed(Case(text, TO_ANY, DEFINE, properties, defines, features))
              for text in (b"${s} === 'abc'", b"'abc' === ${t}", b'${d} === undefined', b'${s}', b"   'abc'   ", b"true ? ${s} : 'x'", b"false ? ${s} : 'x'")]
    texts = [b"true ? ${d} : ${e}", b"false ? ${d} : ${h}", b"(true ? 'a' : 'b') === 'a'", b'\'a"b\' === "a\'b"', b'"a" === \'a\'', b"'a' === 'a '", b"'\\n' === '\\n'",
             b"'${s}' === ${s}", b"vec4(1) === 'red'", b"color('red') === color('#f00')", b"color('red', 0.5) !== color((\"RED\"), 1 / 2)",
             b"${s} === 'abc' ? color('lime') : color('#0f0', 0.25)", b"${s} === ${s}", b"'abc' === 'abc'", b"${s} < 'b'", b"${s} + 'b'", b"-${s}", b"!${d}"]
    cases += [trimmed(Case(text, TO_ANY, STYLE, properties, defines, features[:4])) for text in texts]
    return cases + [Case(b"${d} === 'abc'", TO_BOOLEAN, STYLE, (), ((b'd', b' ' * n + b"'abc'" + b' ' * n),), ((),), tail) for n, tail in ((0, b''), (1, b'\n'), (30, b"\tcolor('red')\n"), (300, b''))]


# ---- numbers

def doubles_feature(*xs):
    return tuple(num(x) for x in xs)


def number_cases(source):
    """Each operation on the edges, from the feature; a strip has no NaN, infinity or odd pattern, but a define may, and the evaluator takes whatever there is."""
    pair = Property(b'x', NUMBER), Property(b'y', NUMBER)
    features = [doubles_feature(EDGES[i], EDGES[(i * 7 + 3) % len(EDGES)]) for i in range(0, len(EDGES), 2)]
    features += [doubles_feature(x, y) for x in (0.0, -0.0, NAN, INFINITY, -INFINITY) for y in (0.0, -0.0, 1.0, INFINITY, NAN)]
    binary = [b'${x} %s ${y}' % operator for operator in BINARY if operator not in LOGICAL]
    binary += [b'min(${x}, ${y})', b'max(${x}, ${y})', b'dot(${x}, ${y})', b'clamp(${x}, ${y}, 1)', b'mix(${x}, ${y}, 0.25)', b'mix(0.5, ${x}, ${y})']
    unary = [b'-${x}', b'+${x}', b'isNaN(${x})', b'isFinite(${x})'] + [b'%s(${x})' % name for name in (b'abs', b'sign', b'floor', b'ceil', b'round', b'fract')]
    cases = [Case(text, TO_ANY, STYLE, pair, (), tuple(chosen(source, features) for _ in range(12))) for text in binary]
    cases += [Case(text, TO_ANY, STYLE, pair[:1], (), tuple((num(chosen(source, EDGES)),) for _ in range(12))) for text in unary]
    texts = [b'0.1 + 0.2', b'0.1 + 0.2 === 0.3', b'0.1 * 3', b'1 / 3 * 3', b'1 / 0', b'-1 / 0', b'0 / 0', b'1 / -0', b'-0', b'0 * -1', b'-0 + 0', b'-0 - 0', b'Infinity - Infinity',
             b'Infinity * 0', b'Infinity % 2', b'5 % 0', b'-0 % 5', b'5 % -Infinity', b'5.5 % -2', b'-5.5 % 2', b'NaN !== NaN', b'NaN < NaN', b'NaN >= 0',
             b'vec2(NaN, 1) === vec2(NaN, 1)', b'vec2(0, 1) === vec2(-0, 1)', b'round(0.49999999999999)', b'round(-0.2)', b'round(2.5)', b'round(-0.5)', b'ceil(-0.5)',
             b'floor(-0)', b'sign(-0)', b'abs(-0)', b'fract(-0.25)', b'fract(-Infinity)', b'min(0, -0)', b'max(-0, 0)', b'min(NaN, 1)', b'max(1, NaN)', b'clamp(NaN, 0, 1)',
             b'clamp(5, 2, 1)', b'mix(0.1, 0.7, 0.3)', b'mix(1, Infinity, 0)', b'9007199254740.99 * 1000', b'999999999999999 * 999999999999999 * 999999999999999',
             b'123456789012345 / 0.00000000000001', b'0.00000000000001 * 0.00000000000001', b'1 - 0.9 === 0.1', b'dot(vec3(0.1, 0.2, 0.3), vec3(1, 1, 1))',
             b'dot(vec2(-0, -0), vec2(1, 1))', b'cross(vec3(0.1, 0.2, 0.3), vec3(0.4, 0.5, 0.6))', b'5000000.25 + 0.5', b'5000000.25 - 5000000', b'rgb(255, 127.5, -1)',
             b'rgba(1, 2, 3, -0)', b'vec4(vec2(0.1, -0), NaN, Infinity)', b'vec3(1) / 3', b'vec3(1, 2, 3) / vec3(3, 0, -0)', b'vec2(7, -7) % vec2(3, 3)',
             b'2 * vec4(0.1, 0.2, 0.3, 0.4)', b'vec3(0.1) * vec3(3)', b'-vec2(0, 1)', b'1 < 2', b'2 <= 2', b'0 < -0', b'0 <= -0', b'-Infinity < Infinity']
    cases += [plain(text) for text in texts]
    odd = tuple((b'd%d' % i, text) for i, text in enumerate((b'NaN', b'Infinity', b'-0', b'1 / 3', b'vec3(NaN, -0, -Infinity)', b'0 / 0', b'vec2(0.1, 1 / 0)')))
    return cases + [trimmed(Case(form.replace(b'D', b'${d%d}' % i), TO_ANY, STYLE, (), odd, ((),))) for i in range(len(odd))
                    for form in (b'D', b'-D', b'D === D', b'D !== NaN', b'D * 2', b'isNaN(D)', b'floor(D)')]


# ---- heights

def height_cases(source):
    """Trees of height 64 and a little less."""
    cases = []
    for n in (61, 62, 63):
        signs = (b'-+' * n)[:n]
        cases += [of_property(signs + part, NUMBER, flags) for part in (b'${n}', b'1', b'true') for flags in ('-', 'a')]
        cases += [by_flag(b'!' * n + part) for part in (b'${t}', b'true', b'1')]
        cases += [of_property(b'${n}' + b' + ${n}' * n, NUMBER, flags) for flags in FLAGS] + [by_flag(b'${t}' + b'||${t}' * n)]
        cases += [plain(b'1' + b' + 1' * n), plain(b'1' + b' - 2' * n), plain(b'1' + b' + 1' * (n - 1) + b' + true'), plain(b'true' + b' + 1' * n), plain(b'0.1' + b'*3' * n),
                  plain(b'true' + b'&&true' * n), plain(b'false' + b'||false' * n)]
        cases += [by_flag(b'${t} ? 1 : ' * n + b'2'), by_flag(b'${t} ? ' * n + b'1' + b' : 2' * n), by_flag(b'${t} ? 1 : ' * (n - 1) + b'-true'),
                  by_flag(b'${t} ? ' * (n - 1) + b'-true' + b' : 2' * (n - 1)), by_flag(b'${t} ? 1 : ' * n + b"'a'")]
        inner = (b'vec3(1).z', 3), (b'vec2(1)[2]', 3), (b'abs(2)', 2), (b'abs(true)', 2), (b'color()', 1), (b"color('red')", 2)
        cases += [plain(signs[:n + 1 - height] + text) for text, height in inner]
    for name, part in ((b'abs', b'-2.5'), (b'floor', b'1.5'), (b'abs', b'true'), (b'vec2', b'1'), (b'vec4', b'1')):
        cases += [plain((b'-%s(' % name) * n + part + b')' * n) for n in (30, 31)]
    cases += [of_property(b'min(' + b'${n},' * n + b'-${n})', NUMBER, flags) for n in (1, 3, 200) for flags in ('-', 'a')]
    cases += [plain(b'(1 + ' * 31 + b'1' + b')' * 31), plain(b'(1 - ' * 31 + b'${u}' + b')' * 31), plain(b'min(1, ' * 31 + b'0' + b')' * 31), plain(b'1 === (' * 31 + b'1' + b')' * 31),
              plain(b'abs(' * 32 + b'-1' + b')' * 32)]
    return cases


# ---- random expressions

LEVEL = {operator: 1 + i for i, level in enumerate(LEVELS) for operator in level}
UNARY_LEVEL, PRIMARY_LEVEL = 7, 8
TEXTS = [b'', b'a', b'abc', b'red', b'19341', b'\xc3\xa9', b'null']


class Writer:
    """Writes expressions of a kind; a part in about `slips` of 64 is of another."""

    def __init__(self, source, names, slips):
        self.source = source
        self.names = names
        self.slips = slips

    def draw(self, n):
        return self.source.getrandbits(16) % n

    def bracketed(self, part, level):
        text, own = part
        return b'(%s)' % text if own < level or self.draw(24) == 0 else text

    def text(self, kind, depth):
        text = self.part(kind, depth)[0]
        return b' ' * max(0, self.draw(20) - 17) + text + b' ' * max(0, self.draw(20) - 16)

    def part(self, kind, depth):
        """The text, and how tightly it holds together."""
        if self.draw(64) < self.slips:
            kind = self.draw(8)
        if depth == 0 or self.draw(6) == 0:
            return self.leaf(kind), PRIMARY_LEVEL
        if kind in (UNDEFINED, NULL, STRING) or self.draw(8) == 0:
            return self.conditional(kind, depth) if self.draw(3) == 0 else (self.leaf(kind), PRIMARY_LEVEL)
        return self.operated(kind, depth)

    def leaf(self, kind):
        fitting = [name for name, found in self.names.items() if found == mask_of([kind])]
        if fitting and self.draw(3):
            return b'${%s}' % chosen(self.source, fitting)
        if kind == UNDEFINED:
            return chosen(self.source, [b'undefined', b'${none}'])
        if kind == NUMBER:
            return chosen(self.source, [b'%d' % self.draw(20), b'%d.%d' % (self.draw(300), self.draw(100)), b'0.%d' % self.draw(1000),
                                        b'NaN' if self.draw(4) == 0 else b'Infinity' if self.draw(3) == 0 else b'7'])
        if kind == STRING:
            return chosen(self.source, [b"'%s'", b'"%s"']) % chosen(self.source, TEXTS)
        if kind == BOOLEAN:
            return chosen(self.source, [b'true', b'false'])
        return b'null' if kind == NULL else b'vec%d(%s)' % (kind - 3, b', '.join(b'%d' % self.draw(9) for _ in range(SIZE[kind])))

    def any_leaf(self):
        """Of any kinds, also of several."""
        if self.names and self.draw(3):
            return b'${%s}' % chosen(self.source, list(self.names))
        return self.leaf(self.draw(8))

    def conditional(self, kind, depth):
        test, first, second = self.part(BOOLEAN, depth - 1), self.part(kind, depth - 1), self.part(kind, depth - 1)
        return b'%s ? %s : %s' % (self.bracketed(test, 1), self.bracketed(first, 0), self.bracketed(second, 0)), 0

    def operated(self, kind, depth):
        ways = [(found.name, kinds) for found in OPERATIONS for kinds, given in found.takes.items() if given == kind and found.name not in ('===', '!==')]
        name, kinds = chosen(self.source, ways)
        if kind == BOOLEAN and self.draw(3) == 0:
            return self.equality(depth)
        parts = [self.part(k, depth - 1) for k in kinds]
        if name == 'color':
            parts = [(b"'%s'" % chosen(self.source, [b'red', b'#0F0', b'Navy', b'#13293d']), PRIMARY_LEVEL)] + parts[1:] if parts else []
        return self.written(name, parts)

    def equality(self, depth):
        operator = chosen(self.source, [b'===', b'!=='])
        left, right = [self.part(self.draw(8), depth - 1) if self.draw(2) else (self.any_leaf(), PRIMARY_LEVEL) for _ in range(2)]
        return binary_text(operator, self.bracketed(left, LEVEL[operator]), self.bracketed(right, LEVEL[operator] + 1)), LEVEL[operator]

    def written(self, name, parts):
        word = name.encode()
        if name == '!' or name[:5] == 'unary':
            text = self.bracketed(parts[0], UNARY_LEVEL)
            return word[-1:] + (b' ' if text[:1] in b'+-' else b'') + text, UNARY_LEVEL
        if word in LEVEL:
            return binary_text(word, self.bracketed(parts[0], LEVEL[word]), self.bracketed(parts[1], LEVEL[word] + 1)), LEVEL[word]
        if name[:1] == '.':
            index = 'xyzw'.index(name[1])
            return self.bracketed(parts[0], PRIMARY_LEVEL) + chosen(self.source, [word, b'.' + b'rgba'[index:index + 1], b'[%d]' % index]), PRIMARY_LEVEL
        arguments = [self.bracketed(part, 0) for part in parts]
        if self.draw(64) < self.slips:
            arguments = arguments[:-1] if self.draw(2) and word != b'color' else arguments + ([b'1'] if arguments or word != b'color' else [])
        return call_text(word, arguments), PRIMARY_LEVEL


def random_properties(source):
    count = 3 + source.getrandbits(8) % 6
    kinds = list(TYPES)
    return tuple(Property(b'pqrstuvw'[i:i + 1], chosen(source, kinds + [NUMBER, BOOLEAN]), chosen(source, FLAGS[:1] * 3 + FLAGS)) for i in range(count))


def random_defines(source, properties):
    """Some that are accepted; a name may be a property's."""
    found = {}
    names = {p.name: declared_kinds(p) for p in properties}
    for _ in range(source.getrandbits(8) % 4):
        name = chosen(source, [b'p', b'q', b'd', b'e', b'f'])
        text = Writer(source, names, 2).text(source.getrandbits(3), source.getrandbits(8) % 3)
        if len(text) < 80 and Rules(Case(text, TO_ANY, DEFINE, properties)).checked()[0] == 0:
            found[name] = text
    return tuple(found.items())


def some_number(source):
    return chosen(source, [lambda: chosen(source, EDGES), lambda: short_decimal(source), lambda: short_decimal(source), lambda: small_whole(source), lambda: small_whole(source),
                           lambda: near_one(source)])()


def some_item(source, declared):
    if lacking(declared.flags) and source.getrandbits(1):
        return chosen(source, lacking(declared.flags))
    if declared.kind == BOOLEAN:
        return truth(source.getrandbits(1))
    if declared.kind == STRING:
        return chosen(source, TEXTS)
    return Value(declared.kind, tuple(some_number(source) for _ in range(SIZE[declared.kind])))


def worst_item(declared):
    """Absent if it may be, else null if it may be, else a sample."""
    return (lacking(declared.flags) + [ITEMS[declared.kind]])[0]


def random_case(source, slips, depth, kind=None):
    properties = random_properties(source)
    defines = random_defines(source, properties)
    rules = Rules(Case(b'1', TO_ANY, STYLE, properties, defines))
    rules.answer()
    scope = chosen(source, [STYLE, STYLE, STYLE, DEFINE])
    names = rules.named(scope, rules.properties, rules.defines)
    wanted = chosen(source, [TO_BOOLEAN, TO_BOOLEAN, TO_VEC4, TO_VEC4, TO_ANY, TO_ANY])
    if kind is None:
        kind = {TO_BOOLEAN: BOOLEAN, TO_VEC4: VEC4, TO_ANY: chosen(source, [NUMBER, VEC2, VEC3, VEC4, STRING, BOOLEAN, UNDEFINED, NULL])}[wanted]
    text = Writer(source, names, slips).text(kind, 1 + source.getrandbits(8) % depth)
    if len(text) > 160:
        return random_case(source, slips, depth, kind)
    case = trimmed(Case(text, wanted, scope, properties, defines, (), chosen(source, [b'\n', b'\n', b'', b'\tcolor()\n'])))
    features = [tuple(worst_item(p) for p in case.properties)] + [tuple(some_item(source, p) for p in case.properties) for _ in range(1 + source.getrandbits(1) if case.properties else 0)]
    return case._replace(features=tuple(distinct(features)))


def fitting_cases(source):
    return [random_case(source, 0, 4) for _ in range(1200)]


def damage_cases(source):
    return [random_case(source, 5, 4) for _ in range(1400)]


def random_cases(source):
    return [random_case(source, 24, 3, source.getrandbits(3)) for _ in range(700)]


def is_plain(case):
    """Without a conditional, `&&` or `||`, and without a define's name."""
    defined = [name for name, _ in case.defines] if case.scope == STYLE else []
    found = nodes(tree_of(case.text))
    return not any(node.form == 'conditional' or (node.form == 'binary' and node.word in LOGICAL) for node in found) and not set(variables(case.text)) & set(defined)


def check_demand(case, answer):
    """If it is accepted, each feature's value is of one of its kinds; a plain one is refused exactly if the worst feature makes it fault or end in a wrong kind."""
    refusal, _, found, _, outcomes = answer
    if refusal == 0:
        assert all(outcome != b'-' and found >> int(outcome[:1]) & 1 for outcome in outcomes), case
    if is_plain(case):
        worst = Rules(case._replace(features=(tuple(worst_item(p) for p in case.properties),))).answer()[4][0]
        ends = worst != b'-' and ENDS[case.wanted] >> int(worst[:1]) & 1
        assert bool(ends) == (refusal == 0), case


# ---- files

FILES = {
    'examples': example_cases, 'literals': literal_cases, 'operators': operator_cases, 'functions': function_cases, 'picks': pick_cases, 'conditionals': conditional_cases,
    'results': result_cases, 'orders': order_cases, 'lazy': lazy_cases, 'names': name_cases, 'strings': string_cases, 'numbers': number_cases, 'heights': height_cases,
    'fitting': fitting_cases, 'damage': damage_cases, 'random': random_cases,
}


def name_lines(case, head, sets):
    rows = [(i, ('a' in p.flags) + 2 * ('n' in p.flags), p.kind) for i, p in enumerate(case.properties)]
    rows += [(MOST_PROPERTIES + i, 0, found) for i, found in enumerate(sets)]
    return b''.join(b'%02x %03x %03x %d %02x\n' % (row, *place, flags, kind) for (row, flags, kind), place in zip(rows, head.names, strict=True))


def value_parts(value):
    """The kind and the parts as they stand in a line."""
    if value.kind == STRING:
        is_literal, start, end = value.parts
        return 8 if is_literal else 4, [start << 32 | end]
    if value.kind == BOOLEAN:
        is_true = int(value.parts[0])
        return BOOLEAN, [is_true << 32 | 1 - is_true]
    if value.kind == NULL:
        return NULL, [0]
    return value.kind, [bits(x) for x in value.parts]


def feature_record(case, feature, outcome):
    rules = Rules(case)
    text, values = placed_feature(case, feature)
    rules.texts = rules.head.text, text
    rows = list(enumerate(values.values())) + [(MOST_PROPERTIES + i, value) for i, value in enumerate(rules.define_values(values).values())]
    lines = [b'%02x %x %x %016x\n' % (row, value_parts(value)[0], i, part) for row, value in rows for i, part in enumerate(value_parts(value)[1])]
    return b'%03x %02x %03x\n' % (len(text), len(lines), len(outcome)) + text + b'\n' + b''.join(lines) + outcome + b'\n'


def record(case, answer):
    head = Head(case)
    refusal, place, found, sets, outcomes = answer
    assert len(head.text) <= MOST_HEAD and len(case.features) < 256
    line = b'%04x %03x %03x %02x %x %x %x %03x %02x %02x\n' % (len(head.text), head.base, head.end, len(head.names), case.scope, case.wanted, refusal, place, found, len(outcomes))
    features = [feature_record(case, feature, outcome) for feature, outcome in zip(case.features, outcomes, strict=True)]
    return line + head.text + b'\n' + name_lines(case, head, sets) + b''.join(features)


def check_covered(answers):
    """Every operation, and the conditional, is accepted and refused, and refused after parts that are accepted."""
    accepted, refused = set(), set()
    for case, (refusal, place, _, _, _) in answers.items():
        for node in nodes(tree_of(case.text)):
            if node.form != 'leaf' and refusal == 0:
                accepted.add(node.word if node.form == 'conditional' else operation(node))
            if node.form != 'leaf' and refusal == 7 and node.at == place:
                refused.add(node.word if node.form == 'conditional' else operation(node))
    wanted = set(CODE) | {b'?'}
    assert accepted == wanted and refused == wanted - {'===', '!=='}, (wanted - accepted, wanted - refused)


def main():
    sys.setrecursionlimit(20000)
    check_stated()
    source = random.Random(SEED)
    answers, files = {}, {}
    for name, cases in FILES.items():
        new = {case: Rules(case).answer() for case in distinct(cases(source)) if case not in answers}
        answers.update(new)
        files[name] = [record(case, answer) for case, answer in new.items()]
        for case, answer in new.items():
            check_demand(case, answer)
    check_covered(answers)
    check_telling(answers)
    write('evaluator_cases', files)


if __name__ == '__main__':
    main()
