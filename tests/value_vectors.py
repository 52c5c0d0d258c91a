#!/usr/bin/env python3
"""Cases for operators, functions, colours and sets of kinds, written to crates/value_cases/data from
the papers alone, and what the program value_cases has to print of them.

The rules are those of page 01, "Kinds and meaning"; the constructors are those that document 004
lists, the words those of CSS Color 3. What the papers say of single cases (`check_stated`) has to come
out, or the script stops; so has node, if it is there, for all that ECMAScript defines. A table of
wrong rules (WRONG) has to be found out by the cases. Running it again writes the same bytes.

All numbers are hex digits. A kind is one digit: 0 Undefined, 1 Null, 2 Boolean, 3 Number, 4 String,
5 vec2, 6 vec3, 7 vec4. An operation is two digits, its place in OPERATIONS. A double is its bit
pattern, 16 digits; every NaN is 7ff8000000000000. A value is 65 digits: its kind and four doubles,
those that the kind does not have being 0; a Boolean has 0 or 1 in place of the first; Undefined and
Null have four 0. In a line's form below, o stands for a digit of an operation, n of a count, k of a
kind, l of a length, s and e of a start and an end, other small letters for other digits, VALUE for a
value's 65, D for a double's 16, and ? for any byte; spaces stand as they are. Every line ends in a
line feed, which its count of bytes has in it. A text stands behind its line byte for byte, with a
line feed behind it.

`rules`: a line for each operation and all operands' kinds but the last one's, 17 bytes.
    oonkkkk ????????
The kinds stand from the left, filled up with 0. Then for each kind of the last operand, 0 to 7, the
kind that is given, or - for a fault. Without operands the first of the eight counts, the others are -.
All kinds of 0 to 4 operands are there, of 5 some.

`numbers`: a line for each case of an operation on values, none of them a String, 335 bytes.
    oo n VALUE VALUE VALUE VALUE VALUE
Four operands, those behind the count being all 0, and the value that is given.

`strings`: a line for each case of === (18) or !== (19), 89 bytes; the style's text; the feature's text.
    oo lll lll k f ssssssssssssssss eeeeeeeeeeeeeeee k f ssssssssssssssss eeeeeeeeeeeeeeee r
The texts' lengths; the two operands; the result, 0 or 1. A String is a place: f is 1 for the style's
text (a literal) and 0 for the feature's, then start and end. It has the bytes from its start up to
its end or its text's, whichever is first; none if the start is not below that. Another kind's operand
has its value's first double (or truth) in place of the start, its other doubles, f and the end are 0.

`colours`: a line for each text, 74 bytes; the text.
    lll c D D D D
Its length; whether it is a colour (1) or not (0); red, green, blue and alpha, all 0 if it is none.

`color`: a line for each call, 125 bytes; the style's text.
    n lll ssssssssssssssss eeeeeeeeeeeeeeee D D D D D
How many arguments it has, 0 to 2; the text's length; the first argument's place in it, a literal; the
second argument; the four doubles of the vec4 that is given. What a call does not have is 0.

`shown`: a line for each colour, 145 bytes.
    D D D D D D D D bbbbbbbb
Its red, green, blue and alpha; the same after clamping; and the four bytes.

`sets`: a line for each node, 23 bytes.
    oo n mmmmmmmmmmmm ? mm
Its operation, how many parts it has, 0 to 6, and six sets of two digits each, those behind the count
being 00. Kind k is in a set if bit k is. Then R and 00 if the node is refused, else A and its set.

`names`: a line for each word, 15 bytes; the word.
    lll ww oo m oo
Its length; its place in FUNCTIONS (14 for none), and the operation that this function is (28 for none);
as a member, which component it picks (4 for none), and the operation that this pick is.
"""
import itertools
import json
import math
import random
import shutil
import struct
import subprocess
from fractions import Fraction
from typing import NamedTuple

from case_files import write

SEED = 1
MOST_OPERANDS = 4
MOST_PARTS = 6
FAR = 2 ** 64 - 1

NAN = float('nan')
INFINITY = float('inf')
SMALLEST = 5e-324
SMALLEST_NORMAL = 2.0 ** -1022
LARGEST = (2.0 - 2.0 ** -52) * 2.0 ** 1023


# ---- binary64: "Every NaN is one NaN, stored as 0x7FF8000000000000."

def bits(x):
    """The bit pattern of a number; a truth value is 0 or 1."""
    if isinstance(x, bool):
        return int(x)
    return 0x7FF8000000000000 if x != x else struct.unpack('>Q', struct.pack('>d', x))[0]


def number(pattern):
    return struct.unpack('>d', struct.pack('>Q', pattern))[0]


def same(xs, ys):
    return list(map(bits, xs)) == list(map(bits, ys))


def is_negative(x):
    return math.copysign(1.0, x) < 0


# ---- single numbers; each with what ECMAScript calls it, which node is asked

ASKED = {}


def as_in_ecmascript(formula):
    """Keeps all arguments and results of a function, so that node can be asked for the same."""
    def kept(rule):
        def applied(*arguments):
            result = rule(*arguments)
            ASKED.setdefault(formula, {})[tuple(map(bits, arguments))] = bits(result)
            return result
        return applied
    return kept


@as_in_ecmascript('+x')
def plus(x):
    return x


@as_in_ecmascript('-x')
def minus(x):
    return -x


@as_in_ecmascript('x + y')
def add(x, y):
    return x + y


@as_in_ecmascript('x - y')
def sub(x, y):
    return x - y


@as_in_ecmascript('x * y')
def mul(x, y):
    return x * y


@as_in_ecmascript('x / y')
def div(x, y):
    if y != 0:
        return x / y
    if x == 0 or x != x:
        return NAN
    return -INFINITY if is_negative(x) != is_negative(y) else INFINITY


@as_in_ecmascript('x % y')
def remainder(x, y):
    """`%` is ECMAScript's remainder."""
    if x != x or y != y or math.isinf(x) or y == 0:
        return NAN
    return math.fmod(x, y)


@as_in_ecmascript('Math.abs(x)')
def absolute(x):
    """`abs` clears the sign."""
    return math.copysign(x, 1.0)


@as_in_ecmascript('Math.sign(x) + 0')
def sign(x):
    """`sign` of either zero is +0, of NaN is NaN."""
    if x != x:
        return NAN
    return 0.0 if x == 0 else math.copysign(1.0, x)


def whole(rule, x):
    """What a rule makes of the exact value; a zero keeps the sign of x."""
    if x != x or math.isinf(x):
        return x
    n = rule(Fraction(x))
    assert Fraction(float(n)) == n
    return math.copysign(float(n), x)


@as_in_ecmascript('Math.floor(x)')
def floor(x):
    return whole(math.floor, x)


@as_in_ecmascript('Math.ceil(x)')
def ceil(x):
    return whole(math.ceil, x)


@as_in_ecmascript('Math.round(x)')
def round_half_up(x):
    """A half rounds up."""
    return whole(lambda q: math.floor(q + Fraction(1, 2)), x)


def fract(x):
    """`fract` is x minus its floor."""
    return sub(x, floor(x))


def order(x):
    """A key for the order of numbers that are not NaN, -0 below +0."""
    return x, not is_negative(x)


@as_in_ecmascript('Math.min(x, y)')
def least(x, y):
    return NAN if x != x or y != y else min(x, y, key=order)


@as_in_ecmascript('Math.max(x, y)')
def greatest(x, y):
    return NAN if x != x or y != y else max(x, y, key=order)


def clamp(x, lo, hi):
    """`clamp` is min(max(x, lo), hi)."""
    return least(greatest(x, lo), hi)


def mix(x, y, a):
    """`mix` is x(1 - a) + ya."""
    return add(mul(x, sub(1.0, a)), mul(y, a))


@as_in_ecmascript('x < y')
def is_below(x, y):
    return x < y


@as_in_ecmascript('x <= y')
def is_at_most(x, y):
    return x <= y


@as_in_ecmascript('x > y')
def is_above(x, y):
    return x > y


@as_in_ecmascript('x >= y')
def is_at_least(x, y):
    return x >= y


@as_in_ecmascript('x === y')
def equal_numbers(x, y):
    return x == y


@as_in_ecmascript('Number.isNaN(x)')
def is_nan(x):
    return x != x


@as_in_ecmascript('Number.isFinite(x)')
def is_finite(x):
    return math.isfinite(x)


# ---- kinds: "A value is of one of eight kinds"

KINDS = range(8)
UNDEFINED, NULL, BOOLEAN, NUMBER, STRING, VEC2, VEC3, VEC4 = KINDS
VECTORS = (VEC2, VEC3, VEC4)
NUMBER_OR_VECTOR = (NUMBER,) + VECTORS
SIZE = {UNDEFINED: 0, NULL: 0, BOOLEAN: 1, NUMBER: 1, VEC2: 2, VEC3: 3, VEC4: 4}


class Value(NamedTuple):
    """Its parts: numbers, or one truth value, or of a String whether it is a literal, its start and its end."""
    kind: int
    parts: tuple = ()


def num(x):
    return Value(NUMBER, (float(x),))


def vector(*xs):
    return Value(VECTORS[len(xs) - 2], tuple(map(float, xs)))


def truth(b):
    return Value(BOOLEAN, (bool(b),))


def alike(kinds, count):
    """That many operands of one of the kinds give this kind."""
    return {(k,) * count: k for k in kinds}


def giving(kind, signatures):
    return {kinds: kind for kinds in signatures}


ANY_TWO = list(itertools.product(KINDS, KINDS))
VECTOR_THEN_NUMBER = {(v, NUMBER): v for v in VECTORS}
NUMBER_THEN_VECTOR = {(NUMBER, v): v for v in VECTORS}

# What 004 lists under vec2, vec3 and vec4, line by line.
VEC2_LIST = [(NUMBER,), (NUMBER, NUMBER), (VEC2,), (VEC3,), (VEC4,)]
VEC3_LIST = [(NUMBER,), (NUMBER, NUMBER, NUMBER), (VEC3,), (VEC4,), (VEC2, NUMBER), (NUMBER, VEC2)]
VEC4_LIST = [(NUMBER,), (NUMBER, NUMBER, NUMBER, NUMBER), (VEC4,), (VEC2, NUMBER, NUMBER), (NUMBER, VEC2, NUMBER),
             (NUMBER, NUMBER, VEC2), (VEC3, NUMBER), (NUMBER, VEC3)]


# ---- values

def by_component(rule):
    """Component by component; a Number beside a vector stands for each of its components."""
    def applied(*values):
        size = max(len(v.parts) for v in values)
        columns = [v.parts * size if len(v.parts) == 1 else v.parts for v in values]
        return [rule(*row) for row in zip(*columns, strict=True)]
    return applied


def on_numbers(rule):
    """A rule whose one answer is of the operands' single numbers or truth values."""
    return lambda *values: [rule(*(v.parts[0] for v in values))]


def bytes_of(string, texts):
    """Of a place in one of the texts, the style's first: as far as the text goes."""
    is_literal, start, end = string.parts
    text = texts[0] if is_literal else texts[1]
    return text[start:min(end, len(text))]


def strictly_equal(a, b, texts=(b'', b'')):
    """`===` takes all kinds: false if they differ, strings by bytes, vectors by components, `NaN` equals nothing."""
    if a.kind != b.kind:
        return False
    if a.kind == STRING:
        return bytes_of(a, texts) == bytes_of(b, texts)
    if a.kind in NUMBER_OR_VECTOR:
        return all([equal_numbers(x, y) for x, y in zip(a.parts, b.parts, strict=True)])
    return a.parts == b.parts


def constructed(size):
    """The components in a row; of a longer vector the last are left out, a Number alone is each of them."""
    def applied(*values):
        row = [x for v in values for x in v.parts]
        return row * size if len(row) == 1 else row[:size]
    return applied


def rgba(*values):
    """`rgb`, `rgba`: Numbers, the first three divided by 255."""
    red, green, blue, alpha = ([v.parts[0] for v in values] + [1.0])[:4]
    return [div(red, 255.0), div(green, 255.0), div(blue, 255.0), alpha]


def dot(p, q):
    """Added left to right."""
    products = [mul(x, y) for x, y in zip(p.parts, q.parts, strict=True)]
    total = products[0]
    for product in products[1:]:
        total = add(total, product)
    return [total]


def cross(p, q):
    """Its x is p.y q.z - p.z q.y, its y and z likewise in cyclic turn."""
    def turned(i):
        j, k = (i + 1) % 3, (i + 2) % 3
        return sub(mul(p.parts[j], q.parts[k]), mul(p.parts[k], q.parts[j]))
    return [turned(0), turned(1), turned(2)]


def pick(index):
    return lambda v: [v.parts[index]]


# ---- colours

# The sixteen basic words of CSS Color 3 (its section 4.1).
WORDS = {
    b'black': 0x000000, b'silver': 0xC0C0C0, b'gray': 0x808080, b'white': 0xFFFFFF, b'maroon': 0x800000, b'red': 0xFF0000,
    b'purple': 0x800080, b'fuchsia': 0xFF00FF, b'green': 0x008000, b'lime': 0x00FF00, b'olive': 0x808000, b'yellow': 0xFFFF00,
    b'navy': 0x000080, b'blue': 0x0000FF, b'teal': 0x008080, b'aqua': 0x00FFFF,
}
HEX_DIGITS = b'0123456789ABCDEFabcdef'


def colour_bytes(text):
    """`#` and 3 or 6 hex digits, or one of CSS's sixteen basic words, any letter case; None for any other text."""
    digits = text[1:]
    if text[:1] == b'#' and len(digits) in (3, 6) and all(d in HEX_DIGITS for d in digits):
        if len(digits) == 3:
            digits = bytes(d for d in digits for _ in range(2))
        return [int(digits[i:i + 2], 16) for i in (0, 2, 4)]
    code = WORDS.get(text.lower())
    return None if code is None else [code >> 16, code >> 8 & 255, code & 255]


def color(text=None, alpha=1.0):
    """`color()` is white; each byte is divided by 255; alpha is taken as it is."""
    found = [255, 255, 255] if text is None else colour_bytes(text)
    return [div(float(b), 255.0) for b in found] + [alpha]


def component(x):
    """Each below 0 or NaN becomes 0, above 1 becomes 1."""
    if x != x or x < 0:
        return 0.0
    return 1.0 if x > 1 else x


def byte(c):
    """The greatest whole number b up to 255 with b not above c times 255 plus 0.5, reckoned exactly."""
    return max(b for b in range(256) if b <= Fraction(c) * 255 + Fraction(1, 2))


# ---- the operations, by number: the kinds they take with the kind they give, and the value

class Operation(NamedTuple):
    name: str
    takes: dict
    gives: object


UNARY = alike(NUMBER_OR_VECTOR, 1)
BINARY = alike(NUMBER_OR_VECTOR, 2)
TWO_NUMBERS = [(NUMBER, NUMBER)]
TWO_TRUTHS = {(BOOLEAN, BOOLEAN): BOOLEAN}
COMPARED = giving(BOOLEAN, TWO_NUMBERS)
EQUATED = giving(BOOLEAN, ANY_TWO)
BOUNDED = BINARY | VECTOR_THEN_NUMBER
CLAMPED = alike(NUMBER_OR_VECTOR, 3) | {(v, NUMBER, NUMBER): v for v in VECTORS}
MIXED = alike(NUMBER_OR_VECTOR, 3) | {(v, v, NUMBER): v for v in VECTORS}
TESTED = {(NUMBER,): BOOLEAN}

OPERATIONS = [
    Operation('unary +', UNARY, by_component(plus)),
    Operation('unary -', UNARY, by_component(minus)),
    Operation('abs', UNARY, by_component(absolute)),
    Operation('sign', UNARY, by_component(sign)),
    Operation('floor', UNARY, by_component(floor)),
    Operation('ceil', UNARY, by_component(ceil)),
    Operation('round', UNARY, by_component(round_half_up)),
    Operation('fract', UNARY, by_component(fract)),
    Operation('+', BINARY, by_component(add)),
    Operation('-', BINARY, by_component(sub)),
    Operation('*', BINARY | VECTOR_THEN_NUMBER | NUMBER_THEN_VECTOR, by_component(mul)),
    Operation('/', BINARY | VECTOR_THEN_NUMBER, by_component(div)),
    Operation('%', BINARY, by_component(remainder)),
    Operation('min', BOUNDED, by_component(least)),
    Operation('max', BOUNDED, by_component(greatest)),
    Operation('clamp', CLAMPED, by_component(clamp)),
    Operation('mix', MIXED, by_component(mix)),
    Operation('!', {(BOOLEAN,): BOOLEAN}, on_numbers(lambda a: not a)),
    Operation('&&', TWO_TRUTHS, on_numbers(lambda a, b: a and b)),
    Operation('||', TWO_TRUTHS, on_numbers(lambda a, b: a or b)),
    Operation('<', COMPARED, on_numbers(is_below)),
    Operation('<=', COMPARED, on_numbers(is_at_most)),
    Operation('>', COMPARED, on_numbers(is_above)),
    Operation('>=', COMPARED, on_numbers(is_at_least)),
    Operation('===', EQUATED, lambda a, b: [strictly_equal(a, b)]),
    Operation('!==', EQUATED, lambda a, b: [not strictly_equal(a, b)]),
    Operation('isNaN', TESTED, on_numbers(is_nan)),
    Operation('isFinite', TESTED, on_numbers(is_finite)),
    Operation('vec2', giving(VEC2, VEC2_LIST), constructed(2)),
    Operation('vec3', giving(VEC3, VEC3_LIST), constructed(3)),
    Operation('vec4', giving(VEC4, VEC4_LIST), constructed(4)),
    Operation('rgb', {(NUMBER,) * 3: VEC4}, rgba),
    Operation('rgba', {(NUMBER,) * 4: VEC4}, rgba),
    Operation('color', giving(VEC4, [(), (STRING,), (STRING, NUMBER)]), color),
    Operation('dot', giving(NUMBER, BINARY), dot),
    Operation('cross', {(VEC3, VEC3): VEC3}, cross),
    Operation('.x', giving(NUMBER, [(VEC2,), (VEC3,), (VEC4,)]), pick(0)),
    Operation('.y', giving(NUMBER, [(VEC2,), (VEC3,), (VEC4,)]), pick(1)),
    Operation('.z', giving(NUMBER, [(VEC3,), (VEC4,)]), pick(2)),
    Operation('.w', giving(NUMBER, [(VEC4,)]), pick(3)),
]
CODE = {operation.name: code for code, operation in enumerate(OPERATIONS)}
assert len(OPERATIONS) == 40 and CODE['+'] == 8 and CODE['==='] == 24 and CODE['color'] == 33 and CODE['.w'] == 39


def kind_given(code, kinds):
    """The kind, or None: "Any other operand, argument count or pick is a fault." """
    return OPERATIONS[code].takes.get(tuple(kinds))


def value_given(code, *values):
    """The value, or None for a fault."""
    kind = kind_given(code, [v.kind for v in values])
    if kind is None:
        return None
    parts = tuple(OPERATIONS[code].gives(*values))
    assert len(parts) == SIZE[kind]
    return Value(kind, parts)


def on(name, *values):
    return value_given(CODE[name], *values)


# ---- sets of kinds

def kinds_in(mask):
    return [k for k in KINDS if mask >> k & 1]


def mask_of(kinds):
    return sum(1 << k for k in set(kinds))


def node_set(code, masks):
    """Refused (None) exactly if some choice of kinds from the parts' sets would fault; else the kinds that the choices give."""
    given = set()
    for choice in itertools.product(*map(kinds_in, masks)):
        kind = kind_given(code, choice)
        if kind is None:
            return None
        given.add(kind)
    return mask_of(given)


# ---- names

FUNCTIONS = b'vec2 vec3 vec4 rgb rgba color isNaN isFinite abs sign floor ceil round fract min max clamp mix dot cross'.split()
MEMBERS = b'x y z w r g b a'.split()


def function_number(word):
    return FUNCTIONS.index(word) if word in FUNCTIONS else len(FUNCTIONS)


def member_index(word):
    return MEMBERS.index(word) % 4 if word in MEMBERS else 4


# ---- what the papers say of single cases

def color_of(*arguments):
    return Value(VEC4, tuple(color(*arguments)))


def painted(colour):
    return bytes(byte(component(c)) for c in colour.parts)


def agree(found, *wanted):
    assert same(found.parts, wanted), (found, wanted)


def check_stated():
    """Page 01's checked examples and those of 004, each beside its text; then the open points 16 to 18."""
    absent, text, one, red = Value(UNDEFINED), Value(STRING, (True, 0, 0)), vector(1, 1, 1), color_of(b'red')
    lap = [mask_of([NUMBER, UNDEFINED])]
    agree(on('===', on('+', num(1), on('*', num(2), num(3))), num(7)), True)    # 1 + 2 * 3 === 7
    agree(on('%', on('unary -', num(7)), num(3)), -1.0)                         # -7 % 3
    agree(on('===', absent, absent), True)                                      # ${Lap} === undefined
    assert node_set(CODE['==='], lap + [mask_of([UNDEFINED])]) == mask_of([BOOLEAN])
    assert node_set(CODE['<'], lap + [mask_of([NUMBER])]) is None               # ${Lap} < 0.2
    agree(on('/', on('vec3', num(1)), num(3)), 1 / 3, 1 / 3, 1 / 3)             # vec3(1.0) / 3
    assert on('/', num(3), one) is None                                         # 3 / vec3(1.0)
    assert on('.z', on('vec2', num(1), num(2))) is None                         # vec2(1, 2).z
    assert not strictly_equal(num(1), text)                                     # 1 === '1'
    agree(on('===', num(NAN), num(NAN)), False)                                 # NaN === NaN
    agree(on('===', on('floor', num(-0.5)), num(-1)), True)                     # floor(-0.5) === -1
    agree(on('round', num(-2.5)), -2.0)                                         # round(-2.5)
    agree(on('*', red, on('vec4', num(0.5))), 0.5, 0.0, 0.0, 0.5)               # color('red') * vec4(0.5)
    assert painted(color_of(b'#0F0', 0.5)) == b'\x00\xff\x00\x80'               # cond true color('#0F0', 0.5)
    assert painted(red) == b'\xff\x00\x00\xff'
    agree(on('.x', red), 1.0)                                                   # color('red').x, .r and [0]
    assert member_index(b'x') == member_index(b'r') == 0
    agree(red, 1.0, 0.0, 0.0, 1.0)                                              # color('red').toString()
    assert color_of() == color_of(b'#FFFFFF') == color_of(b'white') == on('color')
    assert color_of(b'#00FFFF') == color_of(b'#0FF')
    agree(on('===', on('vec4', num(1)), on('vec4', num(1))), True)              # vec4(1.0) === vec4(1.0)
    agree(on('===', on('vec3', num(1)), on('vec4', num(1))), False)             # vec3(1.0) === vec4(1.0), as page 01 has it
    agree(on('*', num(3), on('vec3', num(1))), 3.0, 3.0, 3.0)                   # 3 * vec3(1.0)
    agree(on('*', on('vec2', num(1)), num(3)), 3.0, 3.0)                        # vec2(1.0) * 3
    assert kind_given(CODE['<'], [STRING, NUMBER]) is None                      # "5" < 6
    assert kind_given(CODE['+'], [STRING, NUMBER]) is None                      # "name" + 10, left out by page 01
    agree(on('isNaN', num(0)), False)                                           # isNaN(0.0)
    agree(on('rgb', num(100), num(255), num(190)), 100 / 255, 1.0, 190 / 255, 1.0)
    agree(on('rgba', num(100), num(255), num(190), num(0.25)), 100 / 255, 1.0, 190 / 255, 0.25)
    assert colour_bytes(b'cyan') is None                                        # an extended word
    assert function_number(b'hsl') == function_number(b'sqrt') == function_number(b'Vec3') == 20
    assert member_index(b'xy') == 4                                             # vec3(1.0).xy
    for name, kinds in (('vec4', [VEC2, VEC2]), ('vec3', [VEC2]), ('vec2', []), ('vec3', []), ('vec4', []), ('min', [NUMBER, VEC3]), ('max', [NUMBER, VEC3]),
                        ('clamp', [VEC3, NUMBER, VEC3]), ('mix', [VEC3, NUMBER, NUMBER]), ('color', [STRING, NUMBER, NUMBER]), ('&&', [BOOLEAN, NUMBER])):
        assert kind_given(CODE[name], kinds) is None, name
    agree(on('===', num(0), num(-0.0)), True)
    agree(on('fract', num(-0.0)), 0.0)
    agree(on('fract', num(INFINITY)), NAN)
    agree(on('dot', num(-0.0), num(1)), -0.0)
    agree(on('sign', num(-0.0)), 0.0)
    assert same([component(-0.0)], [-0.0]) and byte(component(-0.0)) == 0
    assert node_set(CODE['vec2'], [0] * 6) == 0 and node_set(CODE['vec2'], []) is None and node_set(CODE['color'], []) == mask_of([VEC4])


# ---- node, for what ECMAScript defines

NODE = r"""
const word = new DataView(new ArrayBuffer(8));
const number = (hex) => { word.setBigUint64(0, BigInt('0x' + hex)); return word.getFloat64(0); };
const hex = (x) => {
  if (typeof x === 'boolean') return x ? '1' : '0';
  if (x !== x) return '7ff8000000000000';
  word.setFloat64(0, x);
  return word.getBigUint64(0).toString(16);
};
const asked = JSON.parse(require('fs').readFileSync(0, 'utf8'));
const told = {};
for (const formula in asked) {
  const f = new Function('x', 'y', 'return ' + formula);
  told[formula] = asked[formula].map((row) => hex(f(...row.map(number))));
}
process.stdout.write(JSON.stringify(told));
"""


def check_node():
    """All that was asked of the functions above has to be what node gives."""
    if not shutil.which('node'):
        print('node is not there and was not asked')
        return
    asked = {formula: [['%016x' % b for b in row] for row in answers] for formula, answers in ASKED.items()}
    run = subprocess.run(['node', '-e', NODE], input=json.dumps(asked), stdout=subprocess.PIPE, check=True, text=True)
    told = json.loads(run.stdout)
    for formula, answers in ASKED.items():
        for (row, mine), theirs in zip(answers.items(), told[formula], strict=True):
            assert mine == int(theirs, 16), (formula, list(map(hex, row)), hex(mine), theirs)
    print('node agrees on %d results of %d functions' % (sum(map(len, ASKED.values())), len(ASKED)))


# ---- operands

def distinct(cases):
    return list(dict.fromkeys(cases))


def both_signs(xs):
    return [y for x in xs for y in (x, -x)]


# Of these, all pairs.
CORE = both_signs([0.0, 1.0, 0.5, 2.5, 3.0, 1 / 3, SMALLEST, LARGEST, INFINITY]) + [NAN]

EDGES = CORE + both_signs([
    0.49999999999999994, 0.5000000000000001, 1.5, 2.0, 7.0, 10.0, 255.0, 254.5, 0.1, 0.2, 0.3, 0.9999999999999999, 1.0000000000000002, SMALLEST_NORMAL,
    SMALLEST_NORMAL - SMALLEST, 2.0 ** 51 + 0.5, 2.0 ** 52 - 0.5, 2.0 ** 52, 2.0 ** 52 + 1, 2.0 ** 53 - 1, 2.0 ** 53, 2.0 ** 53 + 2, 2.0 ** 63, 1e22, 5000000.25,
])


def chosen(source, items):
    return items[source.getrandbits(32) % len(items)]


def any_bits(source):
    return number(source.getrandbits(64))


def short_decimal(source):
    """Up to four digits, up to three of them after the point."""
    x = float(source.getrandbits(16) % 10000) / 10.0 ** (source.getrandbits(8) % 4)
    return -x if source.getrandbits(1) else x


def small_whole(source):
    return float(source.getrandbits(8) % 19 - 9)


def near_one(source):
    """All 53 digits, with a size from 2^-8 up to 2^8."""
    size = math.ldexp(float(1 << 52 | source.getrandbits(52)), source.getrandbits(8) % 16 - 60)
    return -size if source.getrandbits(1) else size


def part(source):
    """From 0 to 1."""
    return (source.getrandbits(16) % 1001) / 1000.0


WAYS = [lambda source: chosen(source, EDGES), lambda source: chosen(source, EDGES), any_bits, short_decimal, short_decimal, small_whole, near_one, near_one]


def some_value(source, kind, way):
    if kind == BOOLEAN:
        return truth(source.getrandbits(1))
    return Value(kind, tuple(way(source) for _ in range(SIZE[kind])))


def some_operands(source, kinds, count):
    """Each time all drawn in the same way, or each in one of its own."""
    found = []
    for i in range(count):
        ways = [WAYS[i % len(WAYS)]] * len(kinds) if i % 3 else [chosen(source, WAYS) for _ in kinds]
        found.append(tuple(some_value(source, kind, way) for kind, way in zip(kinds, ways)))
    return found


def in_columns(rows, kind):
    """Rows of single numbers as operands of a kind, several rows at once; the last are filled up from the front."""
    size = SIZE[kind]
    rows = rows + rows[:-len(rows) % size]
    return [tuple(Value(kind, tuple(column)) for column in zip(*rows[i:i + size])) for i in range(0, len(rows), size)]


def stepped(xs, size, step):
    """Vectors of the numbers in turn, each number coming into each component."""
    return [tuple(xs[(i + step * j) % len(xs)] for j in range(size)) for i in range(len(xs))]


# ---- cases on numbers

UNARY_NAMES = ['unary +', 'unary -', 'abs', 'sign', 'floor', 'ceil', 'round', 'fract']
BINARY_NAMES = ['+', '-', '*', '/', '%', 'min', 'max']
COMPARE_NAMES = ['<', '<=', '>', '>=']
EQUAL_NAMES = ['===', '!==']

CORE_PAIRS = list(itertools.product(CORE, CORE))
PLAIN_PAIRS = list(itertools.product([0.0, -0.0, 1.0, -1.0, INFINITY, -INFINITY, NAN], repeat=2))


def cases_for_signatures(source):
    """Some for each list of kinds that an operation takes, Strings aside."""
    many = {name: 20 for name in UNARY_NAMES + BINARY_NAMES} | {'clamp': 24, 'mix': 24, 'dot': 24, 'cross': 48, 'rgb': 24, 'rgba': 24, 'color': 1}
    many |= {name: 24 for name in COMPARE_NAMES} | {name: 4 for name in EQUAL_NAMES} | {'isNaN': 8, 'isFinite': 8}
    return [(operation.name, row) for operation in OPERATIONS for kinds in operation.takes if STRING not in kinds
            for row in some_operands(source, kinds, many.get(operation.name, 12))]


def unary_cases(source):
    cases = [(name, (num(x),)) for name in UNARY_NAMES + ['isNaN', 'isFinite'] for x in EDGES]
    halves = both_signs([n + 0.5 for n in range(8)])
    near = [math.nextafter(h, towards) for h in halves for towards in (-INFINITY, INFINITY)]
    cases += [(name, row) for name in ('floor', 'ceil', 'round', 'fract') for row in in_columns([(x,) for x in halves + near], VEC4)]
    return cases + [(name, (Value(kind, xs),)) for name in UNARY_NAMES for kind, step in ((VEC2, 5), (VEC3, 7)) for xs in stepped(EDGES, SIZE[kind], step)[::6]]


def binary_cases(source):
    cases = [(name, row) for name in BINARY_NAMES for row in in_columns(CORE_PAIRS, VEC4)]
    cases += [(name, (num(x), num(y))) for name in BINARY_NAMES for x, y in PLAIN_PAIRS]
    return cases + [(name, (num(x), num(y))) for name in BINARY_NAMES for x, y in [(chosen(source, EDGES), chosen(source, EDGES)) for _ in range(20)]]


def comparing_cases(source):
    cases = [(name, (num(x), num(y))) for name in COMPARE_NAMES + EQUAL_NAMES for x, y in PLAIN_PAIRS]
    for name in COMPARE_NAMES + EQUAL_NAMES:
        for x in (0.1, -2.5, SMALLEST, LARGEST, 2.0 ** 53):
            cases += [(name, (num(x), num(y))) for y in (x, -x, math.nextafter(x, INFINITY), math.nextafter(x, -INFINITY), -INFINITY)]
    return cases


def equal_vectors(source):
    """Vectors that are equal, or differ in one component, or have a zero's other sign or a NaN in both."""
    cases = []
    for name, kind in itertools.product(EQUAL_NAMES, VECTORS):
        for i in range(SIZE[kind]):
            xs = [short_decimal(source) for _ in range(SIZE[kind])]
            for mine, other in ((xs[i], xs[i]), (xs[i], math.nextafter(xs[i], INFINITY)), (0.0, -0.0), (NAN, NAN), (INFINITY, INFINITY), (INFINITY, -INFINITY)):
                a, b = (Value(kind, tuple(xs[:i] + [x] + xs[i + 1:])) for x in (mine, other))
                cases.append((name, (a, b)))
    nothing = [Value(UNDEFINED), Value(NULL), truth(False), truth(True), num(0), num(1), vector(0, 0), vector(1, 1, 1), vector(0, 0, 0, 0)]
    return cases + [(name, pair) for name in EQUAL_NAMES for pair in itertools.product(nothing, nothing)]


def truth_cases(source):
    both = [truth(False), truth(True)]
    return [('!', (a,)) for a in both] + [(name, pair) for name in ('&&', '||') for pair in itertools.product(both, both)]


def counted_cases(source):
    """Constructors and picks of 1, 2, 3 ..., so that each component is known by its number."""
    cases = []
    for name in ('vec2', 'vec3', 'vec4', 'rgb', 'rgba', '.x', '.y', '.z', '.w'):
        for kinds in OPERATIONS[CODE[name]].takes:
            for first, step in ((1.0, 1.0), (-4.0, -0.5)):
                row = iter([first + step * i for i in range(16)])
                cases.append((name, tuple(Value(kind, tuple(next(row) for _ in range(SIZE[kind]))) for kind in kinds)))
    return cases


def rgb_cases(source):
    cases = [('rgb', (num(a), num((a + 85) % 256), num((a + 170) % 256))) for a in range(0, 256, 5)]
    return cases + [('rgba', (num(-a), num(a / 2), num(300 - a), num(a / 255))) for a in range(0, 300, 20)]


def dot_cases(source):
    """Pairs of vectors whose products have another sum when added from the right, and the signs of zero sums."""
    cases = []
    for kind in (VEC3, VEC4):
        found = []
        while len(found) < 40:
            pair = tuple(some_value(source, kind, chosen(source, (short_decimal, near_one))) for _ in range(2))
            if not same(dot(*pair), dot_from_right(*pair)):
                found.append(('dot', pair))
        cases += found
        ones = (1.0,) * SIZE[kind]
        for xs in ((1e16, 1.0, -1e16, 1.0), (1.0, 1e16, -1e16, 1.0), (LARGEST, LARGEST, -LARGEST, 1.0), (-LARGEST, -1.0, LARGEST, LARGEST), (INFINITY, 1.0, -INFINITY, 2.0)):
            cases += [('dot', (Value(kind, xs[:SIZE[kind]]), Value(kind, ones))), ('dot', (Value(kind, ones), Value(kind, xs[:SIZE[kind]])))]
    for kind in NUMBER_OR_VECTOR:
        for zeros in itertools.product((0.0, -0.0), repeat=SIZE[kind]):
            cases.append(('dot', (Value(kind, zeros), Value(kind, (1.0,) * SIZE[kind]))))
    return cases


def cross_cases(source):
    """The unit vectors, with either sign, and vectors of differing small numbers."""
    units = [vector(*(s if i == j else 0.0 for j in range(3))) for i in range(3) for s in (1.0, -1.0)]
    cases = [('cross', pair) for pair in itertools.product(units, units)]
    cases += [('cross', (vector(2, 3, 5), vector(7, 11, 13))), ('cross', (vector(7, 11, 13), vector(2, 3, 5)))]
    return cases + [('cross', tuple(some_value(source, VEC3, way) for _ in range(2))) for way in (small_whole, short_decimal, near_one) for _ in range(16)]


def bound_cases(source):
    """`clamp` with bounds in order, the wrong way round, equal, and of differing zeros."""
    zeros = list(itertools.product((0.0, -0.0, 1.0, -1.0), repeat=3))
    cases = [('clamp', row) for row in in_columns(zeros, VEC4)] + [('clamp', row) for row in in_columns(zeros, VEC3)]
    for kind in NUMBER_OR_VECTOR:
        for i in range(12):
            a, b = sorted((short_decimal(source), short_decimal(source)))
            lo, hi = (a, b) if i % 3 else (b, a)
            cases.append(('clamp', (some_value(source, kind, short_decimal), num(lo), num(hi))))
    return cases


def mix_cases(source):
    """The last argument from 0 to 1."""
    cases = []
    for kinds in MIXED:
        for i in range(16):
            way = short_decimal if i % 2 else near_one
            cases.append(('mix', (some_value(source, kinds[0], way), some_value(source, kinds[1], way), some_value(source, kinds[2], part))))
    return cases


NUMBER_CASES = [unary_cases, binary_cases, comparing_cases, equal_vectors, truth_cases, counted_cases, rgb_cases, dot_cases, cross_cases, bound_cases, mix_cases,
                cases_for_signatures]


def number_cases(source):
    """Each line once."""
    cases = [case for rows in NUMBER_CASES for case in rows(source)]
    return list({number_line(*case): case for case in cases}.values())


# ---- wrong rules, each of which some case on numbers has to find out

def dot_from_right(p, q):
    products = [x * y for x, y in zip(p.parts, q.parts)]
    total = products[-1]
    for product in reversed(products[:-1]):
        total = product + total
    return [total]


def unrounded_sum(x, y, p, q):
    """x y + p q as a machine gives it that does not round x y."""
    if not all(map(math.isfinite, (x, y, p, q, x * y, p * q, x * y + p * q))):
        return x * y + p * q
    return float(Fraction(x) * Fraction(y) + Fraction(p * q)) or x * y + p * q


def fused_dot(p, q):
    total = p.parts[0] * q.parts[0]
    for x, y in zip(p.parts[1:], q.parts[1:]):
        total = unrounded_sum(x, y, total, 1.0)
    return [total]


def fused_cross(p, q):
    a, b = p.parts, q.parts
    return [unrounded_sum(a[1], b[2], -a[2], b[1]), unrounded_sum(a[2], b[0], -a[0], b[2]), unrounded_sum(a[0], b[1], -a[1], b[0])]


def in_order(gives, places):
    return lambda *values: [gives(*values)[i] for i in places]


def halved(x):
    return x if not math.isfinite(x) else math.copysign(math.floor(x + 0.5), x)


WRONG = {
    'dot from the right': ('dot', dot_from_right),
    'dot with unrounded products': ('dot', fused_dot),
    'dot from a zero': ('dot', lambda p, q: [0.0 + dot(p, q)[0]]),
    'cross with the other sign': ('cross', lambda p, q: cross(q, p)),
    'cross turned': ('cross', in_order(cross, (1, 2, 0))),
    'cross turned back': ('cross', in_order(cross, (2, 0, 1))),
    'cross with an unrounded product': ('cross', fused_cross),
    'cross with y the other way': ('cross', lambda p, q: [cross(p, q)[0], cross(q, p)[1], cross(p, q)[2]]),
    'min by <': ('min', by_component(lambda x, y: x if x < y else y)),
    'max by >': ('max', by_component(lambda x, y: x if x > y else y)),
    'min without NaN': ('min', by_component(lambda x, y: y if x != x else x if y != y else least(x, y))),
    'clamp as max of min': ('clamp', by_component(lambda x, lo, hi: greatest(least(x, hi), lo))),
    'mix by the difference': ('mix', by_component(lambda x, y, a: x + (y - x) * a)),
    'mix with an unrounded product': ('mix', by_component(lambda x, y, a: unrounded_sum(y, a, x, 1.0 - a))),
    'mix the other way': ('mix', by_component(lambda x, y, a: mix(y, x, a))),
    'remainder with the divisor\'s sign': ('%', by_component(lambda x, y: remainder(x, y) if not remainder(x, y) or is_negative(x) == is_negative(y) else remainder(x, y) + y)),
    'remainder without -0': ('%', by_component(lambda x, y: remainder(x, y) + 0.0)),
    'division by the reciprocal': ('/', by_component(lambda x, y: x * div(1.0, y))),
    'division the other way': ('/', by_component(lambda x, y: div(y, x))),
    'rgb by the reciprocal': ('rgb', lambda *v: [x.parts[0] * (1 / 255) for x in v] + [1.0]),
    'rgba with alpha divided': ('rgba', lambda *v: [x.parts[0] / 255 for x in v]),
    'round by adding a half': ('round', by_component(halved)),
    'round without -0': ('round', by_component(lambda x: round_half_up(x) + 0.0)),
    'ceil without -0': ('ceil', by_component(lambda x: ceil(x) + 0.0)),
    'floor to zero': ('floor', by_component(lambda x: whole(math.trunc, x))),
    'fract of the size': ('fract', by_component(lambda x: x - whole(math.trunc, x))),
    'sign of -0': ('sign', by_component(lambda x: x if x == 0 else sign(x))),
    'minus from zero': ('unary -', by_component(lambda x: 0.0 - x)),
    'abs by <': ('abs', by_component(lambda x: -x if x < 0 else x)),
    'equal by bits': ('===', lambda a, b: [a.kind == b.kind and same(a.parts, b.parts)]),
    'equal by the first': ('===', lambda a, b: [a.kind == b.kind and a.parts[:1] == b.parts[:1]]),
    'less or not more': ('<=', on_numbers(lambda x, y: not x > y)),
    'isFinite of NaN': ('isFinite', on_numbers(lambda x: not math.isinf(x))),
}


def check_telling(cases):
    """Some case finds each wrong rule out; and for all kinds that an operation takes, some case has no two components alike."""
    for wrong, (name, gives) in WRONG.items():
        assert any(not same(gives(*row), on(name, *row).parts) for other, row in cases if other == name), wrong
    for operation in OPERATIONS:
        for kinds in operation.takes:
            if STRING in kinds or operation.name in ('sign', 'color') or (operation.name in ('vec2', 'vec3', 'vec4') and kinds == (NUMBER,)):
                continue
            rows = [row for name, row in cases if name == operation.name and tuple(v.kind for v in row) == kinds]
            assert any(are_distinct(on(operation.name, *row)) and all(map(are_distinct, row)) for row in rows), (operation.name, kinds)


def are_distinct(value):
    return len(set(map(bits, value.parts))) == len(value.parts)


# ---- rules

def rule_line(code, count, kinds):
    last = [kind_given(code, kinds + (k,)) for k in KINDS] if count else [kind_given(code, ())] + [None] * 7
    given = ''.join('-' if kind is None else str(kind) for kind in last)
    return b'%02x%x%s %s\n' % (code, count, ''.join(map(str, kinds)).ljust(4, '0').encode(), given.encode())


def rule_lines():
    lines = [rule_line(code, count, kinds) for code in range(len(OPERATIONS)) for count in range(MOST_OPERANDS + 1)
             for kinds in itertools.product(KINDS, repeat=max(count - 1, 0))]
    five = [(NUMBER,) * 4, (BOOLEAN,) * 4, (STRING,) + (NUMBER,) * 3, (VEC2, NUMBER, NUMBER, NUMBER), (VEC4,) * 4]
    return lines + [rule_line(code, 5, kinds) for code in range(len(OPERATIONS)) for kinds in five]


# ---- strings

# The style's text and the feature's.
STRING_TEXTS = [
    (b"'abc' === 'abcab'", b'feat\t=abc\t=bc\t=abd'),
    (b'aaaa', b'aaaaaa'),
    (b'', b'ab'),
    (b'ab', b''),
    (b'AbabaB', b'ababAB'),
    (b'\x00\xff\x00\x80\xc3\xa9', b'\x00\xff\xc3\xa9\x00'),
    (b'x' * 64 + b'y', b'x' * 65),
]


def spans(texts):
    """Some places of either text: whole, front and rear parts, empty ones, and ones that leave the text."""
    found = []
    for is_literal, text in ((True, texts[0]), (False, texts[1])):
        n = len(text)
        inside = [(0, n), (0, 0), (n, n), (0, 1), (1, 3), (0, max(n - 1, 0)), (min(1, n), n), (max(n - 2, 0), n), (n // 2, n // 2 + 1), (5, 8), (1, 4)]
        outside = [(0, n + 1), (0, FAR), (1, FAR), (n, n + 1), (n, FAR), (n + 1, n + 3), (FAR, FAR), (FAR - 1, FAR), (FAR, 0), (2, 1), (n, 0), (2 ** 32, 2 ** 32 + 1), (3, 2)]
        found += [Value(STRING, (is_literal, *place)) for place in inside + outside]
    return distinct(found)


def string_cases(source):
    cases = []
    for texts in STRING_TEXTS:
        pairs = [(a, b) for a in spans(texts) for b in spans(texts)]
        equal = [pair for pair in pairs if pair[0] != pair[1] and strictly_equal(*pair, texts)]
        full = [pair for pair in equal if bytes_of(pair[0], texts)]
        unequal = [pair for pair in pairs if not strictly_equal(*pair, texts)]
        count = 6 if len(texts[0]) > 60 else 26
        picked = [chosen(source, rows) for rows in (equal, full, unequal, unequal) if rows for _ in range(count)]
        cases += [(name, a, b, texts) for a, b in picked for name in [chosen(source, EQUAL_NAMES)]]
    texts = (b"1 true null undefined NaN '' 0", b'')
    others = {b'': Value(UNDEFINED), b'undefined': Value(UNDEFINED), b'null': Value(NULL), b'true': truth(True), b'1': num(1), b'0': num(0), b'NaN': num(NAN)}
    rows = list(others.items()) + [(word, Value(kind, (x,) + (0.0,) * (SIZE[kind] - 1))) for word, x in ((b'0', 0.0), (b'1', 1.0)) for kind in VECTORS]
    rows += [(b'', truth(False)), (b'', Value(NULL)), (b'', num(0))]
    for word, other in rows:
        string = Value(STRING, (True, *placed(texts[0], word)[1:]))
        cases += [(name, *pair, texts) for name in EQUAL_NAMES for pair in ((string, other), (other, string))]
    return distinct(cases)


def string_operand(v):
    first = v.parts if v.kind == STRING else (0, bits(v.parts[0]) if v.parts else 0, 0)
    return b'%x %d %016x %016x' % (v.kind, *first)


def string_record(name, a, b, texts):
    result = strictly_equal(a, b, texts) == (name == '===')
    head = b'%02x %03x %03x %s %s %d\n' % (CODE[name], len(texts[0]), len(texts[1]), string_operand(a), string_operand(b), result)
    return head + texts[0] + b'\n' + texts[1] + b'\n'


# ---- colours

EXTENDED = b'cyan magenta grey orange pink brown transparent currentColor inherit aliceblue darkred lightgray lime green2 rebeccapurple none rgb hsl color'.split()


def letter_cases(word):
    """Small, capital, mixed, and each letter alone in the other case."""
    mixed = bytes(b ^ 0x20 if i % 2 else b for i, b in enumerate(word))
    return [word, word.upper(), word.capitalize(), mixed, mixed.swapcase()] + [word[:i] + bytes([word[i] ^ 0x20]) + word[i + 1:] for i in range(len(word))]


def near_words(word):
    """One letter less, more, exchanged, or replaced by a byte beside it or one that only looks like its other case."""
    texts = [word[:-1], word[1:], word + b's', word + word[-1:], b'x' + word, word + b' ', b' ' + word, word + b'\x00', b'#' + word, b"'" + word + b"'", word[::-1], word * 2]
    texts += [word[:i] + word[i + 1:] for i in range(1, len(word) - 1)]
    for i in range(len(word)):
        texts += [word[:i] + bytes([b]) + word[i + 1:] for b in (word[i] ^ 0x40, word[i] ^ 0x80, 0x40 if i % 2 else 0x5B)]
    return texts


def hex_texts(source):
    texts = [b'#' + b'%03x' % (v * 0x111) for v in range(16)] + [b'#' + b'%03X' % (v * 0x111) for v in range(16)]
    texts += [b'#' + b'%02x%02X%02x' % (b, (b + 85) % 256, (b * 3 + 170) % 256) for b in range(256)]
    for size in (3, 6):
        texts += [b'#' + bytes(chosen(source, HEX_DIGITS) for _ in range(size)) for _ in range(20)]
    return texts + b'#123 #abc #ABC #aBc #123456 #abcdef #ABCDEF #AbCdEf #00FFFF #0FF #E8F1F2 #13293D #000 #fff #f00 #0f0 #00f'.split()


def wrong_hex_texts(source):
    texts = [b'#' * k + b'0123456789'[:n] for k in (0, 1, 2) for n in range(11) if not (k == 1 and n in (3, 6))]
    texts += [b'%sabc%s' % pair for pair in itertools.product((b'#', b' #', b'# ', b'0x', b'\x23\x23', b'\\#', b'\xa3'), (b'', b' ', b'def', b'def ', b'\n', b'\x00'))]
    for base in (b'#a0F', b'#09afAF'):
        for i in range(len(base)):
            texts += [base[:i] + bytes([b]) + base[i + 1:] for b in b'/:@G`g #\x00\x10\x21\xb0\xe1']
    return texts + [b'#a' + bytes([b]) + b'0' for b in range(256)]


def colour_texts(source):
    texts = [t for word in WORDS for t in letter_cases(word)] + hex_texts(source) + wrong_hex_texts(source)
    texts += EXTENDED + [w.upper() for w in EXTENDED] + [b'', b' ', b'#', b'x', b'red green', b'red,blue', b'blac\xe2\x84\xaa', b'\xc5\xbfilver', b'red\xcc\x81', b'r\xc3\xa9d']
    return distinct(texts + [t for word in WORDS for t in near_words(word)])


def doubles(xs):
    return b' '.join(b'%016x' % bits(x) for x in xs)


def colour_record(text):
    is_colour = colour_bytes(text) is not None
    return b'%03x %d %s\n' % (len(text), is_colour, doubles(color(text) if is_colour else [0.0] * 4)) + text + b'\n'


def placed(style, text):
    """A style's text and the place of another in it."""
    return style, style.index(text), style.index(text) + len(text)


def color_cases(source):
    """Count, the style's text, the first argument's place, the second argument."""
    cases = [(0, b'', 0, 0, 0.0), (0, b"color('red')", 0, 0, 0.0)]
    alphas = EDGES + [0.25, 0.75, 128 / 255]
    texts = list(WORDS) + [w.upper() for w in WORDS] + hex_texts(source)[::10] + [b'#0F0', b'#0f0', b'Red', b'#00FF00']
    for i, text in enumerate(texts):
        literal = placed(b"color('%s', 0.5)" % text, text)
        cases += [(1, *literal, 0.0), (2, *literal, alphas[i % len(alphas)]), (1, text, 0, FAR if i % 2 else len(text), 0.0)]
    cases += [(2, *placed(b"color('red', 0.5) * color('RED')", b'RED'), x) for x in alphas]
    cases += [(2, *placed(b'color\tcolor("#a1B2c3")', b'#a1B2c3'), x) for x in (0.5, -0.0, NAN)]
    cases += [(1, b'xred', 1, 2 ** 32, 0.0), (2, b'#123456', 0, 4, 0.25), (1, b'#123#456', 4, 8, 0.0), (1, b'redgreen', 3, 8, 0.0), (1, b'redgreen', 0, 3, 0.0)]
    return cases


def color_record(count, text, start, end, alpha):
    arguments = [bytes_of(Value(STRING, (True, start, end)), (text, b'')), alpha][:count]
    return b'%x %03x %016x %016x %s %s\n' % (count, len(text), start, end, doubles([alpha]), doubles(color(*arguments))) + text + b'\n'


def shown_cases(source):
    """The numbers where a byte steps up and the next to each side; all edges in each component; bytes by 255; others."""
    steps = [x for b in range(1, 256) for mid in [(2 * b - 1) / 510] for x in (math.nextafter(mid, 0.0), mid, math.nextafter(mid, 1.0))]
    rows = [tuple(steps[i:i + 4]) for i in range(0, len(steps) - 3, 4)] + [tuple(steps[-4:])]
    rows += stepped(EDGES, 4, 11)
    rows += [(b / 255, 1.0 - b / 255, b / 256, b / 510) for b in range(0, 256, 5)]
    rows += [(x, 0.25, 0.5, 0.75) for x in CORE] + [(0.25, 0.5, 0.75, x) for x in CORE]
    rows += [tuple(chosen(source, (part, near_one, any_bits))(source) for _ in range(4)) for _ in range(100)]
    return rows


def shown_line(row):
    held = [component(x) for x in row]
    return b'%s %s %s\n' % (doubles(row), doubles(held), bytes(map(byte, held)).hex().encode())


# ---- sets of kinds

SINGLE = [1 << k for k in KINDS]
ALL_KINDS = 255
NUMBER_VEC3 = mask_of([NUMBER, VEC3])
PARTS = distinct([m | extra for extra in (0, 1, 2, 3) for m in SINGLE] + [ALL_KINDS, NUMBER_VEC3, mask_of(NUMBER_OR_VECTOR), mask_of(VECTORS), 0])
PAIRED = SINGLE + [mask_of(kinds) for kinds in ((NUMBER, UNDEFINED), (NUMBER, NULL), (BOOLEAN, UNDEFINED), (VEC3, UNDEFINED, NULL), (NUMBER, VEC3), NUMBER_OR_VECTOR, KINDS, ())]


def takes_count(code, count):
    return any(len(kinds) == count for kinds in OPERATIONS[code].takes)


def accepted_sets(code, count):
    """All nonempty sets of Number and vectors that the operation accepts as its parts."""
    some = [m for m in range(1, ALL_KINDS) if m & mask_of(NUMBER_OR_VECTOR) == m]
    return [masks for masks in itertools.product(some, repeat=count) if node_set(code, masks)]


def near_sets(source, code, count):
    """Sets near to kinds that the operation takes: with a kind more, which may be taken too, or emptied."""
    lists = [kinds for kinds in OPERATIONS[code].takes if len(kinds) == count]
    masks = [1 << k for k in chosen(source, lists)]
    for i in range(count):
        change = source.getrandbits(8) % 12
        if change < 3:
            masks[i] |= 1 << chosen(source, lists)[i]
        if change == 3:
            masks[i] |= 1 << source.getrandbits(3)
        if change == 4:
            masks[i] = 0
    return tuple(masks)


def random_sets(source, count):
    return tuple(source.getrandbits(8) & source.getrandbits(8) for _ in range(count))


def holed_sets(source, count):
    """One of them empty."""
    masks = [chosen(source, PARTS) for _ in range(count)]
    masks[source.getrandbits(8) % count] = 0
    return tuple(masks)


def set_cases(source):
    cases = []
    for code in range(len(OPERATIONS)):
        paired = PAIRED if takes_count(code, 2) else PAIRED[::3]
        cases += [(code, ())] + [(code, (m,)) for m in PARTS] + [(code, pair) for pair in itertools.product(paired, paired)]
        for count in range(1, MOST_PARTS + 1):
            if takes_count(code, count):
                cases += [(code, near_sets(source, code, count)) for _ in range(40)]
                if count < 4 and OPERATIONS[code].name not in EQUAL_NAMES:
                    cases += [(code, masks) for masks in accepted_sets(code, count)]
            if count > 2:
                cases += [(code, random_sets(source, count)) for _ in range(8)] + [(code, holed_sets(source, count)) for _ in range(4)]
                cases += [(code, (m,) * count) for m in (0, 1 << NUMBER, ALL_KINDS)]
    return distinct(cases)


def set_line(code, masks):
    found = node_set(code, masks)
    row = bytes(masks).ljust(MOST_PARTS, b'\x00').hex().encode()
    return b'%02x %x %s %s\n' % (code, len(masks), row, b'R 00' if found is None else b'A %02x' % found)


# ---- names

# What 004 has and page 01 does not name, and words that are no function.
OTHER_NAMES = b"""sqrt cos sin tan acos asin atan atan2 radians degrees exp log exp2 log2 pow length distance normalize hsl hsla regExp RegExp Boolean Number String
toString test exec PI E Math true false null undefined NaN Infinity vec vec1 vec5 vec0 vec22 ivec2 mat2 colour Color COLOR fmod mod step trunc xy xyz xyzw rg rgbaa
s t p q u v alpha red X Y Z W R G B A xx x1 _x x_ 0 1 2 3 is isnan IsNaN isInfinite minmax maxmin clam lamp mixx cros dott""".split()


def names():
    words = FUNCTIONS + MEMBERS + OTHER_NAMES
    words += [b'', b' ', b'.', b'.x', b'[0]', b'vec2 vec3', b'x y', b'min max', b' vec2', b'vec2 ', b'vec2(', b'x ', b' x', b'\x00', b'x\x00', b'abs\n', b'\xff']
    for word in FUNCTIONS:
        words += [word[:-1], word[1:], word + word[-1:], word + b's', b'_' + word, word[::-1], word * 2, word + b' ', b' ' + word]
        words += [word.upper(), word.lower(), word.capitalize(), word.swapcase()]
        words += [word[:i] + bytes([word[i] ^ flip]) + word[i + 1:] for i in range(len(word)) for flip in (0x20, 1)]
    words += [a + b' ' + b for a, b in zip(FUNCTIONS, FUNCTIONS[1:])] + [a + b for a, b in zip(FUNCTIONS, FUNCTIONS[1:])]
    words += [a + b for a in MEMBERS for b in MEMBERS] + [bytes([b]) for b in range(256)]
    return distinct(words)


def name_record(word):
    function = CODE[word.decode()] if word in FUNCTIONS else len(OPERATIONS)
    member = member_index(word)
    pick = CODE['.x'] + member if member < 4 else len(OPERATIONS)
    return b'%03x %02x %02x %x %02x\n' % (len(word), function_number(word), function, member, pick) + word + b'\n'


# ---- lines

def value_word(v):
    return b'%x' % v.kind + b''.join(b'%016x' % bits(x) for x in v.parts).ljust(64, b'0')


def number_line(name, row):
    words = [value_word(v) for v in row] + [b'0' * 65] * (MOST_OPERANDS - len(row)) + [value_word(on(name, *row))]
    return b'%02x %x %s\n' % (CODE[name], len(row), b' '.join(words))


def main():
    check_stated()
    source = random.Random(SEED)
    numbers = number_cases(source)
    check_telling(numbers)
    files = {
        'rules': rule_lines(),
        'numbers': [number_line(*case) for case in numbers],
        'strings': [string_record(*case) for case in string_cases(source)],
        'colours': [colour_record(text) for text in colour_texts(source)],
        'color': distinct([color_record(*case) for case in color_cases(source)]),
        'shown': distinct([shown_line(row) for row in shown_cases(source)]),
        'sets': [set_line(*case) for case in set_cases(source)],
        'names': [name_record(word) for word in names()],
    }
    check_node()
    write('value_cases', files)


if __name__ == '__main__':
    main()
