#!/usr/bin/env python3
"""Cases for the crate lexer, written to crates/lexer_cases/data from the paper alone, and what the
program lexer_cases has to print of them.

The rules are those of page 01: "Tokens and grammar", of "Refusal numbers" 2 and 3, of "Sizes" the
round brackets. Where it leaves a point open: longest match runs over the refused operators too, and
over a number's fraction before its digits are counted; tokens need no space between them; a string
holds any byte from 0x20 up. What the papers say of single texts (STATED) has to come out, or the
script stops. Running it again writes the same bytes.

A file of texts has for each text a head line, the text and a line feed, and a line for each token.
The head line: the text's length, how many tokens are read, and the number (0 for none) and place of
the text's refusal. A token's line: its kind, a value, its place and its end. The kinds: N a number,
with its digits after the point as value, and on a line of its own the whole number of its digits;
S a string; V a variable; W a word and P a punctuator, with its place in the list (WORDS,
PUNCTUATORS) as value; B one that is refused; E the end, all 0. Tokens are read from place 0, each
from the end of the last, up to the end or a refused one.
`places` has for each case a head line (length and place), the text, and the token there.
`runs` has a head line (length, place, class, byte, end) and the text: where the run of bytes of the
class ends that begins at the place. The classes: S spaces, N bytes of a name, I what may stand
inside a string that the byte closes.
`stands` has a head line (length, place, the word's length, 0 or 1), the text and the word: whether
the word stands at the place of the text.
`classes` has for each byte, which is the text, a head line: the length, and 0 or 1 for whether it is
a space, a letter, a hex digit, of a name, a word's first, a quote, and for whether a name may have
as many bytes as it says.
All numbers are hex digits, places from 0.
"""
import random
import re
from typing import NamedTuple

from case_files import write

SEED = 1
MOST_DIGITS = 15
MOST_NAME = 64
MOST_BRACKETS = 32
MOST_TEXT = 1024

PUNCTUATORS = [m.encode() for m in '? : || && === !== < <= > >= + - * / % ! ( ) [ ] , .'.split()]
REFUSED = [m.encode() for m in '-- ++ == != =~'.split()]
LONE = [m.encode() for m in '& | = ~'.split()]
WORDS = [b'true', b'false', b'null', b'undefined', b'NaN', b'Infinity']

LETTERS = b'ABCDEFGHIJKLMNOPQRSTUVWXYZabcdefghijklmnopqrstuvwxyz'
DIGITS = b'0123456789'
NAME_BYTES = LETTERS + DIGITS + b'_'


# ---- tokens, by the paper

class Lexeme(NamedTuple):
    kind: str
    value: int = 0
    at: int = 0
    end: int = 0
    digits: int = 0


END = Lexeme('E')

NUMBER = re.compile(rb'(0|[1-9][0-9]*)(?:\.([0-9]+))?')
VARIABLE = re.compile(rb'\$\{([A-Za-z0-9_]*)\}')
STRING = re.compile(rb"'[^\x00-\x1f']*'|\"[^\x00-\x1f\"]*\"")
WORD = re.compile(rb'[A-Za-z_][A-Za-z0-9_]*')


def number_at(text, at):
    found = NUMBER.match(text, at)
    fraction = found[2] or b''
    digits = found[1] + fraction
    if len(digits) > MOST_DIGITS:
        return Lexeme('B', 0, at, found.end())
    return Lexeme('N', len(fraction), at, found.end(), int(digits))


def string_at(text, at):
    found = STRING.match(text, at)
    return Lexeme('S', 0, at, found.end()) if found else Lexeme('B', 0, at, at + 1)


def variable_at(text, at):
    found = VARIABLE.match(text, at)
    if found and 1 <= len(found[1]) <= MOST_NAME:
        return Lexeme('V', 0, at, found.end())
    return Lexeme('B', 0, at, at + 1)


def word_at(text, at):
    found = WORD.match(text, at)
    value = WORDS.index(found[0]) if found[0] in WORDS else len(WORDS)
    return Lexeme('W', value, at, found.end())


def punctuator_at(text, at):
    """The longest of the listed and the refused operators; any other byte is refused."""
    there = [m for m in PUNCTUATORS + REFUSED if text.startswith(m, at)]
    if not there:
        return Lexeme('B', 0, at, at + 1)
    punctuator = max(there, key=len)
    if punctuator in REFUSED:
        return Lexeme('B', 0, at, at + len(punctuator))
    return Lexeme('P', PUNCTUATORS.index(punctuator), at, at + len(punctuator))


def token_at(text, start):
    at = start
    while at < len(text) and text[at:at + 1] == b' ':
        at += 1
    if at >= len(text):
        return END
    first = text[at]
    if first in DIGITS:
        return number_at(text, at)
    if first in b'\'"':
        return string_at(text, at)
    if first in b'$':
        return variable_at(text, at)
    if first in LETTERS + b'_':
        return word_at(text, at)
    return punctuator_at(text, at)


def tokens(text):
    """From the front up to the end or a refused token, either included."""
    found = [token_at(text, 0)]
    while found[-1].kind not in 'BE':
        found.append(token_at(text, found[-1].end))
    return found


def verdict(text):
    """The number and place of the refusal, 2 before 3, or 0 and 0."""
    found = tokens(text)
    if found[-1].kind == 'B':
        return 2, found[-1].at
    depth = 0
    for token in found:
        if token.kind == 'P' and PUNCTUATORS[token.value] == b'(':
            depth += 1
            if depth > MOST_BRACKETS:
                return 3, token.at
        if token.kind == 'P' and PUNCTUATORS[token.value] == b')':
            depth = max(depth - 1, 0)
    return 0, 0


# ---- bytes and runs

def byte_classes(b):
    return [b == 0x20, b in LETTERS, b in b'0123456789ABCDEFabcdef', b in NAME_BYTES, b in LETTERS + b'_', b in b'\'"', 1 <= b <= MOST_NAME]


def in_class(b, kind, quote):
    if kind == 'S':
        return b == 0x20
    if kind == 'N':
        return b in NAME_BYTES
    return b >= 0x20 and b != quote


def run_end(text, at, kind, quote):
    while at < len(text) and in_class(text[at], kind, quote):
        at += 1
    return at


def stands(text, at, word):
    return not word or text[at:at + len(word)] == word


# ---- what the papers say of single texts: the places of the tokens, and of the refused one

STATED = [
    (b'====', [0], 3), (b'---', [], 0), (b'<==', [0], 2), (b'&&&', [0], 2), (b'!~', [0], 1), (b'|', [], 0), (b'=', [], 0),
    (b'&', [], 0), (b'--', [], 0), (b'++', [], 0), (b'==', [], 0), (b'!=', [], 0), (b'=~', [], 0), (b'1 --1', [0], 2),
    (b'01', [0, 1], None), (b'12ab', [0, 2], None), (b'1.', [0, 1], None), (b'-0', [0, 1], None), (b'[00]', [0, 1, 2, 3], None),
    (b'123456789012345', [0], None), (b'1234567890123456', [], 0), (b'0.12345678901234', [0], None), (b'0.123456789012345', [], 0),
    (b'${}', [], 0), (b'${' + b'a' * 64 + b'}', [0], None), (b'${' + b'a' * 65 + b'}', [], 0), (b"'\x7f\xff'", [0], None), (b"'\\'", [0], None),
    (b'', [], None), (b"'" + b'a' * 300 + b"'", [0], None),
]


def check_stated():
    for text, places, refused in STATED:
        found = tokens(text)
        assert [t.at for t in found[:-1]] == places, text
        assert found[-1].at == (refused or 0) and (found[-1].kind == 'E') == (refused is None), text
    assert verdict(b'(' * 32) == (0, 0) and verdict(b'(' * 33) == (3, 32)


# ---- texts; each list has the source of random numbers, whether or not it draws on it

def distinct(values):
    return list(dict.fromkeys(values))


def one(b):
    return bytes([b])


EDGES = [one(b) for b in b'\x00\x09\x0a\x0d\x1f\x20!"#$%&\'()*+,-./09:;<=>?@AZ[\\]^_`az{|}~\x7f\x80\x9f\xa0\xc3\xe9\xff']


def punctuator_texts(source):
    signs = PUNCTUATORS + REFUSED + LONE
    texts = signs + [a + gap + b for a in signs for b in signs for gap in (b'', b' ')]
    three = [b'=', b'!', b'&', b'|', b'<', b'>', b'-', b'+', b'~']
    texts += [a + b + c for a in three for b in three for c in three]
    texts += [s * n for s in three for n in (4, 5, 6, 7)]
    texts += [b'1' + s + b'2' for s in signs] + [b'a' + s + b'b' for s in signs] + [b"''" + s + b'${x}' for s in signs]
    return texts


def byte_texts(source):
    frames = [(b'', b''), (b"'", b"'"), (b'"', b'"'), (b'$', b''), (b'ab', b'cd'), (b'12', b'34'), (b'(', b')'), (b'<', b'=')]
    frames += [(b'0', b''), (b'1.', b'5')]
    return [before + one(b) + after for before, after in frames for b in range(256)]


def some_digits(source, count):
    """A digit other than 0, then any."""
    return b''.join(b'%d' % (1 + source.getrandbits(16) % 9 if i == 0 else source.getrandbits(16) % 10) for i in range(count))


def pointed(digits):
    """The digits without a point, and with one at each place, the front and the end included."""
    return [digits] + [digits[:i] + b'.' + digits[i:] for i in range(len(digits) + 1)]


def number_texts(source):
    texts = []
    for count in (1, 2, 3, 13, 14, 15, 16, 17, 30):
        texts += pointed(some_digits(source, count)) + pointed(b'9' * count) + pointed(b'0' * count) + pointed(b'1' + b'0' * (count - 1))
        texts += [b'0.' + some_digits(source, count), b'0' + some_digits(source, count)]
    for edge in (some_digits(source, 15), some_digits(source, 16), b'0.' + some_digits(source, 14), b'0.' + some_digits(source, 15)):
        texts += [edge + after for after in (b' ', b'.', b'..5', b'.a', b'.5', b'a', b'e5', b'_', b'+1', b'--1', b"'x'", b'${x}', b' 1', b'.5.5')]
        texts += [before + edge for before in (b' ', b'.', b'-', b'+', b'0', b'0.', b'a', b'a ', b'(', b'1 ', b'1 + ', b'"s"')]
    texts += b'0 00 000 01 010 0.0 0. 00.5 0..5 01.5 1. 1.. 1..2 .5 ..5 .0 . .. ... 1.5.2 1.2.3.4 1.a 1.5a 12ab ab12 1e5 1E5 1.5e-3 1_000 0x10'.split()
    texts += b'1,5 1.0 1.50 100.0010 3.14159 0.2 39 -1 -0 +1 -.5 1.-5 1.+5 1.(2) 1.[0] 5.x 7.0.x 0b1 1n 1f 0.0.0'.split()
    texts += [b'1 2', b'5 .x', b'1 .5', b'1. 5', b'1 . 5', b'- 1', b'0 1', b'[0][1][2][3]', b'[ 1 ]', b'[1.0]', b'[00]', b'v[4]']
    return texts


def variable_texts(source):
    texts = [b'${' + fill * n + b'}' for n in (0, 1, 2, 62, 63, 64, 65, 66, 128, 256) for fill in (b'a', b'Z', b'0', b'_')]
    for n in (1, 63, 64, 65):
        name = bytes(NAME_BYTES[source.getrandbits(16) % len(NAME_BYTES)] for _ in range(n))
        texts += [b'${' + name + b'}', b'${' + name, b'$' + name + b'}', b'{' + name + b'}', b'${' + name + b' }', b'${ ' + name + b'}']
        texts += [b'${' + name + b'}' + after for after in (b'}', b'x', b'1', b'.x', b'${y}', b"'s'", b' ', b'$')]
        texts += [before + b'${' + name + b'}' for before in (b'$', b'{', b'x', b'1', b' ', b'1.', b"'s'")]
    name = NAME_BYTES + b'z'
    texts += [b'${' + name[:i] + edge + name[i + 1:] + b'}' for i in (0, 1, 31, 62, 63) for edge in (b' ', b'-', b'.', b'}', b'$', b'\x00', b'\xe9')]
    whole = b'${abc}'
    texts += [whole[:i] + edge + whole[i:] for i in range(len(whole) + 1) for edge in EDGES]
    texts += [whole[:i] + edge + whole[i + 1:] for i in range(len(whole)) for edge in EDGES]
    texts += [whole[:i] for i in range(len(whole))] + [whole[:i] + whole[i + 1:] for i in range(len(whole))]
    texts += [b'$', b'$$', b'${', b'${}', b'$}', b'$ {a}', b'${a', b'${a b}', b'${foo[${bar}]}', b'${a.b}', b"${feature['a']}", b'${${a}}', b'${true}']
    texts += [b'${1a}', b'${a}${b}', b'${a} ${b}', b'${a}b', b'a${b}', b'${_}', b'${-a}', b'${a}}', b'$a', b'${\xc3\xa9}', b'${a\x00}', b'${a\n}']
    return texts


def word_texts(source):
    texts = []
    for word in WORDS + [b'undefine', b'Inf', b'vec3', b'color', b'_']:
        texts += [word[:i] for i in range(1, len(word) + 1)] + [word + tail for tail in (b's', b'_', b'0', b'A', b' ', b'.', b'(', b')', b'-', b'$')]
        texts += [head + word for head in (b'_', b'a', b'0', b' ', b'.', b'-', b'!')]
        texts += [word.upper(), word.lower(), word.swapcase(), word.capitalize(), word + word, word + b' ' + word, word[1:] + word[:1], word[::-1]]
        texts += [word[:i] + one(word[i] ^ 0x20) + word[i + 1:] for i in range(len(word))]
        texts += [word[:i] + b' ' + word[i:] for i in range(1, len(word))] + [word[:i] + one(word[i] + 1) + word[i + 1:] for i in range(len(word))]
    texts += [fill * n for fill in (b'a', b'Z', b'_', b'x1') for n in (1, 2, 32, 64, 65, 255, 256)]
    texts += b'vec2 vec3 vec4 rgb rgba color isNaN isFinite abs sign floor ceil round fract min max clamp mix dot cross x y z w r g b a'.split()
    texts += b'_a a_ a_b __ _1 a1 1a a1b2 A_1 regExp Math.PI feature.a meta x.y.z a.b[0].c NaN.x true.x null(1) Infinity1 -Infinity !true'.split()
    texts += [a + b' ' + b for a in WORDS for b in WORDS] + [a + b for a in WORDS for b in WORDS]
    return texts


def string_texts(source):
    texts = []
    for quote, other in ((b"'", b'"'), (b'"', b"'")):
        body = b'a Z9'
        texts += [quote + body[:i] + one(b) + body[i:] + quote for i in range(len(body) + 1) for b in range(32)]
        texts += [quote + body[:i] + edge + body[i:] + quote for i in range(len(body) + 1) for edge in EDGES]
        texts += [quote + one(b) + quote for b in range(0x7f, 0x100)]
        texts += [quote + body[:i] for i in range(len(body) + 1)] + [quote * n for n in range(1, 8)]
        texts += [quote + other + quote, quote + other, other + quote + other, quote + quote + other, quote + other + other + quote]
        texts += [quote + tail + quote for tail in (b'\\', b'\\\\', b'\\' + quote, b'a\\', b'\\n', b'\\x41', b'//', b'${a}', b'((', b'--', b'&')]
        texts += [quote + b'a' + quote + after for after in (b'b', b'1', b'.x', b'[0]', b' ', b'${x}', quote + quote, other + other, quote, other, b'\n')]
        texts += [before + quote + b'a' + quote for before in (b'b', b'1', b'1.', b'-', b' ', b'${x}', quote, other, b'$', b'\t')]
        texts += [quote + b'a' * n + quote for n in (1, 63, 64, 65, 254, 255, 256, 300)] + [quote + b'a' * n for n in (64, 255, 300)]
        texts += [quote + 'Straße, 高さ'.encode() + quote, b'1 ' + quote + b'a' + other + b' ' + quote + b' x', quote + b'a\r\nb' + quote]
        texts += [quote + b'a' + quote + b' ' + quote + b'b', quote + b'a' + quote + b' ' + quote + b'\x1f' + quote, quote + b'x' + b'\x00']
    return texts


def bracket_texts(source):
    texts = []
    for n in (31, 32, 33, 34):
        texts += [b'(' * n, b'( ' * n, b' (' * n, b'f(' * n, b'(' * n + b')' * n, b')' * n, b')' * n + b'(' * n, b'[' * n, b'()' * n]
        texts += [b'(' * n + b'1' + b')' * n, b'((' + b')' * 3 + b'(' * n, b')' + b'(' * n, b'[' + b'(' * n + b']', b"'('" * n, b'"' + b'(' * n + b'"']
        texts += [b'(' * n + b')' + b'(' * 2, b'(' * n + b')(' * 5, b'(' * n + b'))((', b'(' * n + b'))(((', b'(' * n + b'])[(', b'-(' * n]
        texts += [b'(' * n + bad for bad in (b'--', b'&', b'#', b"'", b'$', b'\x80', b' ++', b')#', b'1234567890123456')]
        texts += [b'#' + b'(' * n, b'(' * (n - 1) + b'#(', b'(' * n + b"'(('" + b'(', b'(' * n + b' ' * 9, b'${a}' + b'(' * n, b'vec3(' * n]
    for n in (0, 1, 5, 31, 32):
        texts += [b'(' * n + b')' * (n + 1) + b'(' * k for k in (32, 33)] + [b'(' * n + b')' * n + b'(' * k for k in (32, 33)]
        texts += [b'(' * 32 + b')' * n + b'(' * k for k in (n, n + 1, n + 2)]
    return texts


def space_texts(source):
    texts = [b' ' * n for n in (0, 1, 2, 3, 4, 31, 100)]
    for text in (b'1', b'a', b'${a}', b"' '", b'-', b'===', b'true', b'--', b'#', b'(', b'12.5', b"'a", b'\t', b'\n', b'\xa0'):
        texts += [lead * b' ' + text + trail * b' ' for lead in (0, 1, 2, 5) for trail in (0, 1, 2, 5)]
    for text in (b'= = =', b'= ==', b'== =', b'! ==', b'!= =', b'< =', b'> =', b'& &', b'| |', b'- -', b'+ +', b'= ~', b'- - 1', b'+ + 1'):
        texts += [text, text + b' ', b' ' + text, b'1 ' + text + b' 2']
    texts += [b'1\t2', b'1\n2', b'1\r\n', b'\t1', b'1\t', b'a\x0bb', b'a\x0cb', b'a\xa0b', b'a\xc2\xa0b', b'a\x7fb', b'a \x00', b'\xef\xbb\xbf1']
    return texts


def example_texts(source):
    """The expressions that page 01 and document 004 show, those that the lexer refuses included."""
    return [line.encode() for line in EXAMPLES.strip('\n').split('\n')] + [b'']


EXAMPLES = """
1 + 2 * 3 === 7
-7 % 3
${Lap} === undefined
${Lap} < 0.2
true || ${Lap} < 0.2
vec3(1.0) / 3
3 / vec3(1.0)
vec2(1, 2).z
1 === '1'
NaN === NaN
floor(-0.5) === -1
round(-2.5)
false ? 1 : true ? 2 : 3
color('red') * vec4(0.5)
1 --1
${Line} > 39
color('red')
color('#0F0', 0.5)
1 - 2 - 3
color()
0 === -0
foo + 1
foo
[4]
[1.0]
[ 1 ]
color(1, 2, 3)
color('red', 1, 2)
${Area} > 0
${Height} < 60
color('#13293D')
true
color('#E8F1F2', 0.5)
color('#ffffff')
${ZipCode} === '19341'
(regExp('^Chest').test(${County})) && (${YearBuilt} >= 1970)
(${Temperature} > 90) ? color('red') : color('white')
rgba(${red}, ${green}, ${blue}, (${volume} > 100 ? 0.5 : 1.0))
${id} === '1'
(${Height} >= 1.0) && (${Height} < 10.0)
(${Height} >= 70.0) && (${Height} < 100.0)
(${Height} >= 100.0)
clamp((${Height} - 0.5) / 2.0, 1.0, 255.0)
rgb(${Height}, ${Height}, ${Height})
color('#0000FF') * ${HeightColor}
${NewHeight} < 200.0
${Height}/2.0}
'Hello, ${featureName}.'
${height} * ${width} * ${depth}
building.name
building['name']
temperatures[1]
isNaN(0.0),color('cyan', 0.5)
true || expression
false && expression
true ? leftExpression : rightExpression
'Cesium'
"Cesium"
[0, 1, 2]
vec2(1.0, 2.0)
vec4(1.0, 2.0, 3.0, 4.0)
regExp('^Chest'))
isNaN(testValue : Number) : Boolean
vec3(1.0).xy
vec4(1.0) === vec4(1.0)
'(x, y, z, w)'
color(keyword : String, [alpha : Number])
rgb(100, 255, 190)
hsl(1.0, 0.6, 0.7)
rgba(100, 255, 190, 0.25)
color('red').x
color('red')[0]
color('red').toString()
regExp('(?:)')
regExp('a').test('abc') === true
regExp('a(.)', 'i').exec('Abc') === 'b'
regExp('Building\\s(\\d)').exec(${Name}) === '1'
regExp('a') =~ 'abc'
'abc' =~ regExp('a')
regExp('a') !~ 'bcd'
'bcd' !~ regExp('a')
"name" + 10
3 * vec3(1.0)
vec2(1.0) * 3
Boolean(1) === true
Number('1') === 1
String(1) === '1'
vec3(1.0) === vec4(1.0)
"5" < 6
RegExp('a')
"/a/"
/a/
cos(${Angle} + Math.PI) < 0
cos($ {Angle} + Math.PI)<0
color() * pow(Math.E / 2.0, ${Temperature})
${feature.identifier}
${feature['identifier']}
${foo[${bar}]}
${enabled} === true
${description} === null
${order} === 1
${name} === 'Feature name'
vec4(${temperature})
${address.street} === `Example street`
${address['street']} === `Example street`
${feature} === `building`
`Name is ${name}, order is ${order}`
${temperatures['scale']} === 'fahrenheit'
${temperatures.values[0]} === 70
${temperatures['values'][0]} === 70 // Same as (temperatures[values])[0] and temperatures.values[0]
abs(x : Number) : Number
abs(${temperature}) > 20.0
x >= 0
x < 0
sign(${Temperature}) * sign(${Velocity}) === 1.0
floor(${Position}) === 0
atan2(${GridY}, ${GridX}) > 0.0
exp2(${Density}) > 1.0
x - floor(x)
color() * fract(${Density})
min(${Width}, ${Height}) > 10.0
color() * clamp(${temperature}, 0.1, 0.2)
mix(20.0, ${Angle}, 0.5) > 25.0
length(x - y)
dot(${RightVector}, ${UpVector}) > 0.5
vec4(cross(${RightVector}, ${UpVector}), 1.0)
${Temperature} * 0.5
${COLOR} * color('red')'
${POSITION}.x > 0.5
${NORMAL}.x > 0 ? 2 : 1
${COLOR}.alpha
color()['r']
1.0 === false
if...else
|,^,&,<<,>>,>>>
"""


# Fragments that may stand in an expression, and some that are refused wherever they stand outside a string.
GOOD = PUNCTUATORS + WORDS + [
    b' ', b' ', b' ', b'  ', b'0', b'1', b'7', b'12.5', b'0.25', b'100', b'.5', b'x', b'y', b'_a1', b'vec3', b'color', b'(', b')', b'${a}', b'${Lap}', b'${x_1}',
    b"'a'", b'"b c"', b"''", b"'('", b'"\'"', b"'\\'", b"'\xc3\xa9'", b'123456789012345', b'truex', b'nul', b'NaN',
]
BAD = REFUSED + LONE + [b"'", b'"', b'$', b'${', b'}', b'#', b'\\', b'`', b'^', b'@', b';', b'\t', b'\n', b'\x7f', b'\x80', b'1234567890123456', b'0.1234567890123456', b'${}']


def random_text(source, most, bad_share):
    text = b''
    while True:
        fragments = BAD if source.getrandbits(10) < bad_share else GOOD
        piece = fragments[source.getrandbits(16) % len(fragments)]
        if len(text) + len(piece) > most:
            return text
        text += piece


def random_texts(source):
    texts = [random_text(source, source.getrandbits(16) % 41, share) for share in (0, 20, 60, 200) for _ in range(350)]
    texts += [bytes(0x20 + source.getrandbits(16) % 0x5f for _ in range(1 + i % 12)) for i in range(300)]
    texts += [bytes(source.getrandbits(8) for _ in range(1 + i % 8)) for i in range(100)]
    signs = b"=!<>&|-+~'\"$.{}( 10a"
    texts += [bytes(signs[source.getrandbits(16) % len(signs)] for _ in range(1 + i % 10)) for i in range(600)]
    return texts


def filled(text, size):
    return text + b' ' * (size - len(text))


def long_texts(source):
    """Texts of the most bytes that an expression has."""
    size = MOST_TEXT
    texts = [b' ' * size, b'a' * size, b'9' * size, filled(b'0' * 300, size), b"'" + b'x' * (size - 2) + b"'", b"'" * size, b'"' + b'y' * (size - 1)]
    texts += [b' ' * (size - 1) + b'#', b' ' * (size - 1) + b'1', b'a' * (size - 1) + b'-', b'${' + b'a' * (size - 3) + b'}', b'9.' + b'9' * (size - 2)]
    texts += [b'()' * (size // 2), b' ' * (size - 33) + b'(' * 33, b'(' * 33 + b' ' * (size - 34) + b'&', b' ' * (size - 2) + b'--']
    return texts + [filled(random_text(source, size, share), size) for share in (0, 0, 3, 3, 3)]


# ---- cases at single places

FAR = [MOST_TEXT, 2 ** 32, 2 ** 63, 2 ** 64 - 2, 2 ** 64 - 1]

PLACED = [
    b'', b' ', b'1', b'   ', b'${Lap} < 0.2', b'true || ${Lap} < 0.2', b'1 --1', b"'a \"b' \"c'd\"", b"'abc", b'12.50.75', b'1234567890123456.75', b'0.0000000000000010',
    b'===!==<=>=&&||', b'====', b'a_1 falsetrue NaN', b'${a}${bc}', b'${a b}', b'vec2(1, 2).z', b'((()))', b'1..2', b'undefined', b'Infinity', b'\x00\xff\x7f',
    b'regExp(\'a\') =~ "b"', b'x ? -1 : +1', b"'\x1f' 'a'", b'&&&|||---+++', b'$${{}}', b'000123', b' \t 1', b'[0][1]', b'a.b.c', b'1e5', b'!true', b"\\'\\'",
]


def place_cases():
    return [(text, at) for text in PLACED for at in list(range(len(text) + 3)) + FAR]


def run_cases():
    texts = [b'', b'   ', b' a b', b'ab_9 -', b"it's", b'a"b\'c', b'\x1f \x20', b'x\x00y', b'\x7f\x80\xff', b'@AZ[`az{/09:_^', b'${Lap}', b'  \t  ', b'a' * 70, b' ' * 70]
    classes = [('S', 0), ('N', 0), ('I', 0x27), ('I', 0x22), ('I', 0x61), ('I', 0x20), ('I', 0x1f), ('I', 0xff)]
    cases = [(text, at, kind, quote) for text in texts for kind, quote in classes for at in list(range(min(len(text), 16) + 3)) + FAR[2:]]
    cases += [(one(b), 0, kind, quote) for b in range(256) for kind, quote in classes[1:3]]
    return distinct(cases)


def stand_cases():
    texts = [b'', b'a', b'===', b'a--b', b'${Lap}', b'false', b'\x00\xff\x00', b'aaaa']
    words = [b'', b'a', b'=', b'==', b'===', b'====', b'--', b'-', b'${', b'}', b'false', b'fals', b'falsey', b'False', b'\x00', b'\xff', b'\xff\x00', b'aa', b'aaaaa', b' ']
    cases = [(text, at, word) for text in texts for word in words for at in list(range(len(text) + 3)) + FAR[2:]]
    cases += [(b'^`a', at, one(b)) for b in range(256) for at in (0, 2)]
    return distinct(cases)


# ---- lines

def token_lines(token):
    line = b'%c %02x %03x %03x\n' % (ord(token.kind), token.value, token.at, token.end)
    return line + b'%016x\n' % token.digits if token.kind == 'N' else line


def text_record(text):
    assert len(text) <= MOST_TEXT
    found = tokens(text)
    return b'%03x %03x %x %03x\n' % (len(text), len(found), *verdict(text)) + text + b'\n' + b''.join(map(token_lines, found))


def place_record(text, at):
    return b'%03x %016x\n' % (len(text), at) + text + b'\n' + token_lines(token_at(text, at))


def run_record(text, at, kind, quote):
    return b'%03x %016x %c %02x %016x\n' % (len(text), at, ord(kind), quote, run_end(text, at, kind, quote)) + text + b'\n'


def stand_record(text, at, word):
    return b'%03x %016x %03x %d\n' % (len(text), at, len(word), stands(text, at, word)) + text + b'\n' + word + b'\n'


def class_record(b):
    return b'001 %d %d %d %d %d %d %d\n' % (*byte_classes(b),) + one(b) + b'\n'


TEXT_FILES = {
    'punctuators': punctuator_texts, 'bytes': byte_texts, 'numbers': number_texts, 'variables': variable_texts, 'words': word_texts, 'strings': string_texts,
    'brackets': bracket_texts, 'spaces': space_texts, 'examples': example_texts, 'random': random_texts, 'long': long_texts,
}


def main():
    check_stated()
    source = random.Random(SEED)
    seen = set()
    files = {}
    for name, texts in TEXT_FILES.items():
        new = [text for text in distinct(texts(source)) if text not in seen]
        seen.update(new)
        files[name] = [text_record(text) for text in new]
    files['places'] = [place_record(*case) for case in place_cases()]
    files['runs'] = [run_record(*case) for case in run_cases()]
    files['stands'] = [stand_record(*case) for case in stand_cases()]
    files['classes'] = [class_record(b) for b in range(256)]
    write('lexer_cases', files)


if __name__ == '__main__':
    main()
