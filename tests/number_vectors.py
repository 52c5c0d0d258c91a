#!/usr/bin/env python3
"""Cases for the crate number, written to crates/number_cases/data from the paper alone, and what the
program number_cases has to print of them.

The rules are those of page 01 ("What the painter reads", a field; "Tokens and grammar", a number;
"Kinds and meaning"). Each result is worked out with exact fractions, and where ECMAScript defines
it, node has to agree. Running it again writes the same bytes.

A file of numbers has lines of four words, each of 16 hex digits: up to three arguments, those that
the function does not take being 0, and the result. A number is its bit pattern.
A line of `literals` has a text in a field of 40 bytes, filled up with spaces, and eight words: the
text's length, the place, the answer (0 nothing, 1 a number, 2 too long), its end, the whole number
of its digits, the digits after the point, the value, and the value with a `-` before it.
"""
import json
import math
import random
import re
import struct
import subprocess
from fractions import Fraction

from case_files import write

SEED = 1
TEXT_WIDTH = 40
MOST_DIGITS = 15

NAN = 0x7FF8000000000000
INFINITY = 0x7FF0000000000000
SIGN = 0x8000000000000000
ZERO = 0
ONE = 0x3FF0000000000000


# ---- binary64: bit patterns and exact values

def pattern(x):
    """The bit pattern of a Python float; every NaN has one."""
    return NAN if x != x else struct.unpack('>Q', struct.pack('>d', x))[0]


def is_nan(b):
    return b & ~SIGN > INFINITY


def is_infinite(b):
    return b & ~SIGN == INFINITY


def is_zero(b):
    return b & ~SIGN == 0


def is_negative(b):
    return b >= SIGN


def exact(b):
    """The value of a finite number."""
    field = b >> 52 & 0x7FF
    digits = b & (1 << 52) - 1
    if field:
        digits += 1 << 52
    size = Fraction(digits) * Fraction(2) ** (max(field, 1) - 1075)
    return -size if is_negative(b) else size


def nearest(q, negative_zero=False):
    """The binary64 nearest to a fraction, ties to even; where that is 0, with the sign of q or as asked."""
    sign = SIGN if q < 0 or (q == 0 and negative_zero) else 0
    a = abs(q)
    if a == 0:
        return sign
    e = max(a.numerator.bit_length() - a.denominator.bit_length() - 53, -1074)
    while a / Fraction(2) ** e >= 1 << 53:
        e += 1
    scaled = a / Fraction(2) ** e
    digits, rest = divmod(scaled.numerator, scaled.denominator)
    twice = 2 * rest
    if twice > scaled.denominator or (twice == scaled.denominator and digits % 2):
        digits += 1
    size = min(digits + (e + 1074 << 52), INFINITY)
    assert size == INFINITY or size == pattern(abs(float(a)))
    return sign | size


def whole(n, sign_of):
    """A whole number as ECMAScript's roundings give it: a zero has the argument's sign."""
    return nearest(Fraction(n), is_negative(sign_of))


def next_above(b):
    if is_nan(b) or b == INFINITY:
        return b
    if is_zero(b):
        return 1
    return b - 1 if is_negative(b) else b + 1


def next_below(b):
    return negated(next_above(negated(b)))


def negated(b):
    return b if is_nan(b) else b ^ SIGN


# ---- the functions of page 01, "Kinds and meaning"

def add(x, y):
    if is_nan(x) or is_nan(y):
        return NAN
    if is_infinite(x) or is_infinite(y):
        if is_infinite(x) and is_infinite(y):
            return x if x == y else NAN
        return x if is_infinite(x) else y
    return nearest(exact(x) + exact(y), is_negative(x) and is_negative(y))


def sub(x, y):
    return add(x, negated(y))


def mul(x, y):
    if is_nan(x) or is_nan(y):
        return NAN
    sign = (x ^ y) & SIGN
    if is_infinite(x) or is_infinite(y):
        return NAN if is_zero(x) or is_zero(y) else sign | INFINITY
    return nearest(exact(x) * exact(y), sign != 0)


def by_whole_part(rule):
    def rounded(x):
        if is_nan(x):
            return NAN
        return x if is_infinite(x) else whole(rule(exact(x)), x)
    return rounded


floor = by_whole_part(math.floor)
ceil = by_whole_part(math.ceil)
round_half_up = by_whole_part(lambda q: math.floor(q + Fraction(1, 2)))


def fract(x):
    return sub(x, floor(x))


def sign(x):
    if is_nan(x):
        return NAN
    if is_zero(x):
        return ZERO
    return x & SIGN | ONE


def absolute(x):
    return NAN if is_nan(x) else x & ~SIGN


def component(x):
    if is_nan(x):
        return ZERO
    if is_infinite(x):
        return ZERO if is_negative(x) else ONE
    if exact(x) < 0:
        return ZERO
    return ONE if exact(x) > 1 else x


def byte(x):
    """Of the component that x is held to."""
    bound = exact(component(x)) * 255 + Fraction(1, 2)
    return max(b for b in range(256) if b <= bound)


def order(b):
    """A key for the order of the numbers, -0 below +0."""
    return -1 - (b & ~SIGN) if is_negative(b) else b


def least(x, y):
    return NAN if is_nan(x) or is_nan(y) else min(x, y, key=order)


def greatest(x, y):
    return NAN if is_nan(x) or is_nan(y) else max(x, y, key=order)


def clamp(x, lo, hi):
    return least(greatest(x, lo), hi)


def mix(x, y, a):
    return add(mul(x, sub(ONE, a)), mul(y, a))


def remainder(x, y):
    """The exact rest of the magnitudes, with the sign of x."""
    if is_nan(x) or is_nan(y) or is_infinite(x) or is_zero(y):
        return NAN
    if is_infinite(y):
        return x
    rest = abs(exact(x)) % abs(exact(y))
    result = x & SIGN | nearest(rest)
    assert abs(exact(result)) == rest
    return result


def one_nan(x):
    """What a stored pattern is once read and stored again."""
    return NAN if is_nan(x) else x


def value(negative, digits, places):
    quotient = nearest(Fraction(digits, 10 ** places))
    assert float(digits) == digits and float(10 ** places) == 10 ** places
    assert quotient == pattern(float(digits) / float(10 ** places))
    return negated(quotient) if negative else quotient


# ---- node, for what ECMAScript defines

NODE = r"""
const word = new DataView(new ArrayBuffer(8));
const number = (hex) => { word.setBigUint64(0, BigInt('0x' + hex)); return word.getFloat64(0); };
const hex = (x) => {
  if (x !== x) return '7ff8000000000000';
  word.setFloat64(0, x);
  return word.getBigUint64(0).toString(16).padStart(16, '0');
};
const functions = {
  floor: (x) => Math.floor(x), ceil: (x) => Math.ceil(x), round: (x) => Math.round(x),
  fract: (x) => x - Math.floor(x), sign: (x) => Math.sign(x), abs: (x) => Math.abs(x),
  min: (x, y) => Math.min(x, y), max: (x, y) => Math.max(x, y), remainder: (x, y) => x % y,
  clamp: (x, lo, hi) => Math.min(Math.max(x, lo), hi), mix: (x, y, a) => x * (1 - a) + y * a,
  bits: (x) => x,
};
const asked = JSON.parse(require('fs').readFileSync(0, 'utf8'));
const told = {};
for (const name in asked) {
  told[name] = asked[name].map((row) => name === 'literals' ? hex(Number(row)) : hex(functions[name](...row.map(number))));
}
process.stdout.write(JSON.stringify(told));
"""


def ask_node(asked):
    run = subprocess.run(['node', '-e', NODE], input=json.dumps(asked), stdout=subprocess.PIPE, check=True, text=True)
    return {name: [int(h, 16) for h in row] for name, row in json.loads(run.stdout).items()}


# ---- arguments

def both_signs(values):
    return [b for v in values for b in (v, negated(v))]


def with_neighbours(values):
    return [b for v in values for b in (next_below(v), v, next_above(v))]


def distinct(values):
    return list(dict.fromkeys(values))


def near(source, low, high):
    """A number of either sign whose size is from 2^low up to 2^high."""
    exponent = low + source.getrandbits(16) % (high - low)
    return source.getrandbits(1) << 63 | 1023 + exponent << 52 | source.getrandbits(52)


SMALLEST = [1, 2, 0x000FFFFFFFFFFFFF, 0x0010000000000000, 0x0010000000000001]
LARGEST = [0x7FEFFFFFFFFFFFFE, 0x7FEFFFFFFFFFFFFF, INFINITY]


def single_arguments(source):
    halves = [n + 0.5 for n in range(5)] + [254.5, 65535.5, 2.0 ** 32 + 0.5]
    halves += [2.0 ** 50 + 0.5, 2.0 ** 51 - 0.5, 2.0 ** 51 + 0.5, 2.0 ** 52 - 1.5, 2.0 ** 52 - 0.5]
    wholes = [1.0, 2.0, 3.0, 255.0, 5e6, 2.0 ** 32, 1e15]
    wholes += [2.0 ** k + d for k in (51, 52, 53, 54) for d in (-2, -1, 0, 1, 2)]
    wholes += [2.0 ** 61, 2.0 ** 62, 2.0 ** 63, 2.0 ** 64, 1e22, 1e300]
    parts = [0.1, 0.2, 0.25, 0.3, 0.75, 0.9, 1 / 3, 2.0 ** -9, 2.0 ** -10, 1 / 510, 2.0 ** -53, 2.0 ** -54, 1e-300]
    fixed = [ZERO] + SMALLEST + with_neighbours([pattern(x) for x in halves + wholes]) + [pattern(x) for x in parts] + LARGEST
    patterns = [one_nan(source.getrandbits(64)) for _ in range(20)]
    middle = [near(source, -3, 54) for _ in range(50)]
    return distinct(both_signs(fixed) + [NAN] + patterns + middle)


def special_arguments():
    positive = [ZERO] + SMALLEST[::2] + [pattern(x) for x in (0.1, 0.49999999999999994, 0.5, 1.0, 1.5, 2.5, 3.0, 255.0)]
    positive += [next_above(ONE), pattern(2.0 ** 52), pattern(2.0 ** 53), LARGEST[1], INFINITY]
    return both_signs(positive) + [NAN, next_below(ONE)]


def triples(source, specials, count):
    """Some of the special values and some random numbers, so that neither is alone."""
    found = []
    for i in range(count):
        row = []
        for _ in range(3):
            if i % 3 == 0 or (i % 3 == 1 and source.getrandbits(1)):
                row.append(specials[source.getrandbits(16) % len(specials)])
            else:
                row.append(near(source, -8, 8))
        found.append(tuple(row))
    return distinct(found)


def mixing(source, count):
    """Triples for mix with the last argument from 0 to 1."""
    parts = [ZERO, ONE, pattern(0.5), pattern(0.1), pattern(0.3), pattern(0.9)]
    found = []
    for i in range(count):
        a = parts[i % len(parts)] if i % 2 else near(source, -6, 0) & ~SIGN
        found.append((near(source, -9, 24), near(source, -9, 24), a))
    return distinct(found)


def ordered(source, count):
    """Triples for clamp whose bounds are in order."""
    found = []
    for _ in range(count):
        lo, hi = sorted((near(source, -4, 4), near(source, -4, 4)), key=order)
        found.append((near(source, -4, 4), lo, hi))
    return found


def boundaries():
    """Each (2b - 1) / 510, where the byte steps to b: the nearest number and the next to each side."""
    return with_neighbours([nearest(Fraction(2 * b - 1, 510)) for b in range(1, 256)])


def patterns(source):
    nans = [INFINITY + d for d in (1, 2, 1 << 51, (1 << 51) + 1, (1 << 51) - 1, (1 << 52) - 1)]
    nans += [INFINITY + 1 + source.getrandbits(52) % ((1 << 52) - 1) for _ in range(60)]
    fixed = [ZERO, ONE, pattern(0.1)] + SMALLEST + LARGEST
    fixed += [1 << k for k in range(63)]
    return distinct([b for v in fixed + nans for b in (v, v ^ SIGN)] + [source.getrandbits(64) for _ in range(60)])


def decimals(source):
    """Digits as a whole number, and how many of them stand after the point."""
    found = [(0, k) for k in range(15)] + [(1, k) for k in range(15)] + [(10 ** 15 - 1, k) for k in range(15)]
    for k in range(15):
        for size in (1, 5, 9, 14, 15):
            found.append((source.getrandbits(64) % 10 ** size, k))
    return [(s, n, k) for n, k in distinct(found) for s in (0, 1)]


# ---- literals

NUMBER = re.compile(rb'(0|[1-9][0-9]*)(?:\.([0-9]+))?')


def read(text, at):
    """The longest number at a place: its kind, end, whole number of digits, digits after the point."""
    found = NUMBER.match(text, at) if at <= len(text) else None
    if not found:
        return 0, 0, 0, 0
    fraction = found[2] or b''
    digits = found[1] + fraction
    if len(digits) > MOST_DIGITS:
        return 2, found.end(), 0, 0
    return 1, found.end(), int(digits), len(fraction)


def some_digits(source, count):
    """A digit other than 0, then any."""
    return ''.join(str(1 + source.getrandbits(16) % 9 if i == 0 else source.getrandbits(16) % 10) for i in range(count))


def pointed(source, count, before):
    text = some_digits(source, count)
    return text if before == count else text[:before] + '.' + text[before:]


def literals(source):
    """Texts, each with a place."""
    texts = []
    for count in range(1, 16):
        texts += [pointed(source, count, p) for p in range(1, count + 1)]
        texts += ['9' * count, '0.' + '0' * (count - 1) + '1', '1' + '0' * (count - 1)]
        texts += ['0.' + some_digits(source, count), '9.' + '9' * (count - 1) if count > 1 else '9.']
    for count in (16, 17, 20, 21, 25, 35):
        texts += [pointed(source, count, p) for p in (1, 2, 8, count - 2, count - 1, count)]
        texts += ['0.' + some_digits(source, count - 1), '0.' + '0' * (count - 1), '9' * count, '1' + '0' * (count - 1)]
        texts += [some_digits(source, count) + '.', some_digits(source, count) + 'x', '0' + some_digits(source, count)]
    texts += ['', '.', '-', '+', ' ', '0', '00', '01', '007', '0.', '0.0', '00.5', '0..5', '01.5', '1.', '1..2', '.5', '-1', '-0', '- 1', '+1', '--1',
              '12ab', 'ab12', '1.2.3', '1.a', '1.5a', '1 2', '1 .5', '1. 5', '1e5', '1E5', '1.5e-3', '0x10', '1_000', '1,5', '3.14159', '0.2', '39',
              '999999', '1.0', '1.50', '100.0010', 'NaN', 'Infinity', 'null', '5000000.25', '0.1', '0.3', '${Lap} < 0.2', 'vec3(1.0) / 3']
    cases = [(t.encode(), 0) for t in texts]
    for beside in b'/:.-+ ,eE_;\x2f\x3a\x0b\x10\x19\x1f\x7f\xae\xb0\xb9\xff':
        b = bytes([beside])
        cases += [(b + b'5', 0), (b + b'5', 1), (b'5' + b, 0), (b'5' + b + b'7', 0), (b'5.' + b + b'7', 0), (b'5.7' + b + b'8', 0), (b'0' + b + b'9', 0)]
    for text in (b'01', b'12ab', b'1.2.3', b'-12.50 + 3', b'vec3(1.0) / 39', b'${Line} > 39', b'', b'7', b'1234567890123456.75', b'0.0000000000000010'):
        cases += [(text, at) for at in range(len(text) + 3)]
        cases += [(text, at) for at in (40, 1000, 2 ** 32, 2 ** 63, 2 ** 64 - 1)]
    return distinct(cases)


# ---- lines

def words(row):
    return ' '.join('%016x' % word for word in row).encode()


def number_line(arguments, result):
    return words(list(arguments) + [0] * (3 - len(arguments)) + [result]) + b'\n'


def literal_line(text, at):
    assert len(text) <= TEXT_WIDTH
    kind, end, digits, places = read(text, at)
    values = [value(False, digits, places), value(True, digits, places)] if kind == 1 else [0, 0]
    return text.ljust(TEXT_WIDTH) + b' ' + words([len(text), at, kind, end, digits, places] + values) + b'\n'


def main():
    source = random.Random(SEED)
    singles = [(x,) for x in single_arguments(source)]
    specials = special_arguments()
    pairs = [(x, y) for x in specials for y in specials]
    groups = {
        'floor': (floor, singles),
        'ceil': (ceil, singles),
        'round': (round_half_up, singles),
        'fract': (fract, singles),
        'abs': (absolute, singles),
        'sign': (sign, singles),
        'min': (least, pairs),
        'max': (greatest, pairs),
        'clamp': (clamp, triples(source, specials, 240) + ordered(source, 120)),
        'mix': (mix, triples(source, specials, 240) + mixing(source, 120)),
        'remainder': (remainder, pairs),
        'component': (component, singles),
        'byte': (byte, singles + [(x,) for x in boundaries()]),
        'bits': (one_nan, [(x,) for x in patterns(source)]),
        'value': (value, decimals(source)),
    }
    texts = literals(source)
    results = {name: [rule(*row) for row in rows] for name, (rule, rows) in groups.items()}

    # node has to agree where ECMAScript defines the result; only the sign of a zero differs by the paper
    asked = {name: [['%016x' % b for b in row] for row in rows] for name, (_, rows) in groups.items() if name not in ('component', 'byte', 'value')}
    numbers = [(t, at) for t, at in texts if read(t, at)[0] == 1]
    asked['literals'] = [t[at:read(t, at)[1]].decode() for t, at in numbers]
    told = ask_node(asked)
    for name, rows in asked.items():
        if name == 'literals':
            ours = [value(False, *read(t, at)[2:]) for t, at in numbers]
            assert ours == [pattern(float(text)) for text in rows]
        else:
            ours = results[name]
        for row, mine, theirs in zip(rows, ours, told[name], strict=True):
            assert mine == theirs or (name == 'sign' and theirs == SIGN and mine == ZERO), (name, row, hex(mine), hex(theirs))

    files = {name: [number_line(row, result) for row, result in zip(rows, results[name])] for name, (_, rows) in groups.items()}
    files['literals'] = [literal_line(t, at) for t, at in texts]
    write('number_cases', files)


if __name__ == '__main__':
    main()
