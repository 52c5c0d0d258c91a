#!/usr/bin/env python3
"""Cases for the program ledger, written to crates/ledger_cases/data from the papers alone, and what the
program ledger_cases has to print of them: whole inputs with the whole ledger of each.

The rules are those of page 01; ledger_reference.py has them. What the papers say of single inputs
(STATED) has to come out, or the script stops, and so has examples/block.ledger. Tables of wrong painters
and wrong readings (PAINTERS, ENDS_OF_INPUT, KIND_RULES, and those of the scripts for heads, features and
expressions) have to be found out by the cases: each prints for some input a ledger that differs. Running
it again writes the same bytes.

A file has its cases one behind the other. Each is a line of 14 bytes, the input and its ledger, both
byte for byte, with nothing between or behind them.
    iiiiii llllll
The lengths of the input and of the ledger in bytes, in hex digits, and a line feed.
"""
import itertools
import math
import os
import random
import struct
import sys
from fractions import Fraction

import evaluator_vectors
import head_vectors
import value_vectors
from case_files import CRATES, write
from evaluator_vectors import TEXTS, TO_BOOLEAN, TO_VEC4, Case, Fault, Property, Rules, nodes, single, tree_of
from head_vectors import ALL_TYPES, BAD_FLAGS, BAD_NAMES, BAD_TYPES, BAD_WORDS, COLOR_ROW, COLUMNS, COND_ROW, DEFINES, FLAG_WORDS, FORMS, GOOD_NAMES, LINE_FAULTS, MOST_HEAD, MOST_LINE
from head_vectors import OPTIONAL, PLACES, RIGHT, SAMPLES, SEVENTEEN, SHOW_ROW, TYPE_WORDS, WRONG_KINDS
from head_vectors import Head, Refusal, Refused, cond, color, damaged_rows, damaged_text, define, full_head, lines, long_line, prop, random_field, random_rows, row, seen, show, spaced, typed
from ledger_reference import HEADING, WHITE, Ledger, Painted, byte_once, ledger
from lexer_vectors import distinct
from syntax_vectors import FAULTS
from value_vectors import BOOLEAN, NUMBER, STRING, UNDEFINED, VEC4, Value, chosen, component, mask_of

SEED = 1
MOST_BYTES = 131072
MOST_DATA = 2500000


def strip(*fields):
    return row(b'feat', *fields)


def strips(fields):
    """One for each text, of one field."""
    return [strip(field) for field in fields]


def page(text):
    """An input or ledger as page 01 shows it, with an arrow for each tab, and ¶ for each line feed."""
    return text.replace('→', '\t').replace('¶', '\n').encode('latin-1')


# ---- what the papers say of single inputs

SAMPLE = "prop→Line→Number→-¶prop→Lap→Number→a¶cond→${Line} > 39→color('red')¶cond→true→color('#0F0', 0.5)¶feat→39→0.25¶feat→40→¶feat→x→0.3¶"
LAP = 'prop→Lap→Number→a¶'
LAPS = 'feat→0.25¶feat→¶feat→-0.5¶'


def all_shown(*answers):
    return ''.join('%d→%s→#FFFFFFFF¶' % (i, answer) for i, answer in enumerate(answers, 1))


def lap_shown(text, *answers):
    return '%sshow→%s¶%s' % (LAP, text, LAPS), all_shown(*answers)


def lap_refused(line, number, place):
    return '%s%s¶%s' % (LAP, line, LAPS), 'refused→%d→2→%d¶' % (number, place)


def coloured(text, word):
    return 'color→%s¶feat¶' % text, '1→true→%s¶' % word


# An input, and its ledger without the heading.
STATED = [
    # page 01's checked examples
    (SAMPLE, '1→true→#00FF0080¶2→true→#FF0000FF¶3→refused→9→5¶'),
    lap_shown('1 + 2 * 3 === 7', 'true', 'true', 'true'), lap_shown('-7 % 3 === -1', 'true', 'true', 'true'), lap_shown('${Lap} === undefined', 'false', 'true', 'false'),
    lap_refused('show→${Lap} < 0.2', 7, 7), lap_refused('show→true || ${Lap} < 0.2', 7, 15), lap_refused('cond→${Lap} < 0.2→color()', 7, 7),
    lap_shown('vec3(1.0) / 3 === vec3(1 / 3)', 'true', 'true', 'true'), lap_refused('define→d→3 / vec3(1.0)', 7, 2), lap_refused('define→d→vec2(1, 2).z', 7, 10),
    lap_shown("1 === '1'", 'false', 'false', 'false'), lap_shown('NaN === NaN', 'false', 'false', 'false'), lap_shown('floor(-0.5) === -1', 'true', 'true', 'true'),
    lap_shown('round(-2.5) === -2', 'true', 'true', 'true'), lap_shown('(false ? 1 : true ? 2 : 3) === 2', 'true', 'true', 'true'), lap_refused('show→', 4, 0), lap_refused('define→d→', 4, 0),
    lap_refused('color→', 4, 0), lap_refused('cond→→color()', 4, 0), lap_refused('cond→true→', 4, 0), coloured("color('red') * vec4(0.5)", '#80000080'), lap_refused('show→1 --1', 2, 2),
    lap_shown('123456789012345 > 1', 'true', 'true', 'true'), lap_refused('show→1234567890123456 > 1', 2, 0),
    lap_shown('(' * 32 + 'true' + ')' * 32, 'true', 'true', 'true'), lap_refused('show→' + '(' * 33 + 'true' + ')' * 33, 3, 32),
    # its other rules
    ('feat¶', '1→true→#FFFFFFFF¶'), ('show→false¶feat¶', '1→false→#FFFFFFFF¶'), ("show→false¶color→color('red')¶feat¶", '1→false→#FF0000FF¶'), ('cond→false→color()¶feat¶', '1→true→undefined¶'),
    ('show→false¶cond→false→color()¶feat¶', '1→false→undefined¶'), ("cond→true→color('red')¶cond→true→color('blue')¶feat¶", '1→true→#FF0000FF¶'),
    ("cond→false→color('red')¶cond→true→color('blue')¶cond→true→color('lime')¶feat¶", '1→true→#0000FFFF¶'), coloured('vec4(0.5, NaN, 2, -1)', '#8000FF00'),
    coloured('vec4(1 / 0, -1 / 0, 0 / 0, -0)', '#FF000000'), coloured('rgba(1, 2, 3, 0.2)', '#01020333'), coloured('rgb(255, 254.75, 0.75)', '#FFFF01FF'), coloured("color('Navy', 0.1)", '#0000801A'),
    ('prop→N→Number→-¶show→${N} - 5000000 === 0.25¶feat→5000000.25¶feat→5000000.5¶', all_shown('true', 'false')), lap_shown('1 - 2 - 3 === -4', 'true', 'true', 'true'),
    ('prop→A→Number→-¶define→A→${A} * 2¶define→B→${A}¶show→${A} === 2 * ${B}¶feat→1¶feat→-3.5¶', all_shown('true', 'true')),
    ('define→A→1¶define→B→${A} === undefined¶show→${B}¶feat¶', all_shown('true')), ('define→A→1¶define→B→${A} + 1¶feat¶', 'refused→7→2→5¶'),
    ("prop→S→String→an¶cond→${S} === undefined→color('red')¶cond→${S} === null→color('lime')¶cond→${S} === 'null'→color('blue')¶feat→¶feat→null¶feat→=null¶feat→=¶",
     '1→true→#FF0000FF¶2→true→#00FF00FF¶3→true→#0000FFFF¶4→true→undefined¶'),
    ('prop→A→Number→-¶color→color()¶cond→true→color()¶feat→1¶', 'refused→8→3→0¶'), ('prop→A→Number→-¶feat→1→2¶feat¶feat→1¶feat→null¶', '1→refused→9→8¶2→refused→9→4¶3→true→#FFFFFFFF¶4→refused→9→5¶'),
    ('x' * 32769, 'refused→1→0→32768¶'), ('x' * 32768, 'refused→8→1→0¶'), ('feat' + 'x' * 4093, 'refused→8→1→0¶'), ('feat¶feat' + 'x' * 4093 + '¶feat¶', '1→true→#FFFFFFFF¶2→refused→1→4096¶3→true→#FFFFFFFF¶'),
    ('feat¶feat' + 'x' * 4092 + '¶feat¶', '1→true→#FFFFFFFF¶2→refused→9→0¶3→true→#FFFFFFFF¶'),
    # the points that page 01 leaves open
    ('', ''), ('¶', 'refused→8→1→0¶'), ('feat', '1→true→#FFFFFFFF¶'), ('feat¶¶', '1→true→#FFFFFFFF¶2→refused→9→0¶'), ('feat¶¶feat', '1→true→#FFFFFFFF¶2→refused→9→0¶3→true→#FFFFFFFF¶'),
    ('¶feat¶', 'refused→8→1→0¶'), ('show→true¶¶feat¶', 'refused→8→2→0¶'), ('show→true', ''), ('show→1', 'refused→7→1→1¶'), ('feature¶feat¶', 'refused→8→1→0¶'), ('feat ¶', 'refused→8→1→0¶'),
    ('feat\r¶feat\r¶', 'refused→8→1→0¶'), ('feat¶feat\r¶', '1→true→#FFFFFFFF¶2→refused→9→0¶'), ('feat→¶', '1→refused→9→5¶'), ('feat¶show→false¶feat¶', '1→true→#FFFFFFFF¶2→refused→9→0¶3→true→#FFFFFFFF¶'),
    ('prop→A→Number→-¶feat→1\r¶feat→1', '1→refused→9→5¶2→true→#FFFFFFFF¶'), ('show→true\r¶feat¶', 'refused→2→1→4¶'), ('prop→A→Number→-\r¶feat→1¶', 'refused→8→1→14¶'), ('\rfeat¶', 'refused→8→1→0¶'),
    ('→feat¶', 'refused→8→1→0¶'), ('feat¶feature¶', '1→true→#FFFFFFFF¶2→refused→9→0¶'), ("define→feat→1¶show→${feat} === 1¶feat¶", all_shown('true')),
]


BLOCK = os.path.join(CRATES, '..', 'examples', 'block')


def file_bytes(path):
    with open(path, 'rb') as file:
        return file.read()


def stated_inputs(source):
    return [page(text) for text, _ in STATED] + [file_bytes(BLOCK + '.txt')]


def check_stated():
    for text, wanted in STATED:
        found = ledger(page(text))
        assert found == HEADING + page(wanted), (text[:200], found)
    assert ledger(file_bytes(BLOCK + '.txt')) == file_bytes(BLOCK + '.ledger')
    # Too long for a case: nothing after the strip 1,000,000 is read.
    long_input = itertools.chain([b'feat\n'] * 1000000, iter(lambda: 1 / 0, None))
    *_, last = Ledger(long_input).printed()
    assert last == b'1000000\trefused\t1\t999999\n'
    *_, last = Ledger(itertools.chain([b'feat\n'] * 999999, [b'x' * 4097, b'feat\n'])).printed()
    assert last == b'1000000\trefused\t1\t4096\n'


# ---- styles

RED, LIME, BLUE = b"color('red')", b"color('lime')", b"color('blue', 0.5)"
TRUTHS = [b'true', b'false']
NUMBERS = [b'0', b'-0', b'1', b'-1', b'0.5', b'39', b'40', b'-2.5', b'0.1', b'255', b'123456789012345', b'0.00000000000001', b'5000000.25']


def under(rows, *fields):
    """The head's rows, and a strip of one field for each text."""
    return lines(*rows, *strips(fields))


def style_inputs(source):
    """With and without each line of a style, in each order; some strips are hidden."""
    front = [prop(b'A', b'Boolean'), prop(b'B')]
    rows = [[], [show(b'${A}')], [show(b'!${A}')], [show(b'true')], [show(b'false')], [show(b'${B} > 1')]]
    colours = [[], [color(RED)], [color(b'vec4(${B} / 4)')], [cond(b'${A}', RED)], [cond(b'${A}', RED), cond(b'${B} > 1', LIME)], [cond(b'false', RED)], [cond(b'true', BLUE)]]
    behind = [strip(truth, text) for truth in TRUTHS for text in (b'0', b'1', b'2.5', b'-4')]
    inputs = [lines(*front, *shows, *others, *behind) for shows in rows for others in colours]
    inputs += [lines(*front, *others, *shows, *behind) for shows in rows[1:3] for others in colours[1:]]
    inputs += [lines(*shows, *others, *[b'feat'] * 3) for shows in rows[3:5] + [[]] for others in (colours[0], colours[1], colours[5], colours[6])]
    inputs += [lines(*front[:1], cond(b'${A}', RED), show(b'${A}'), cond(b'true', LIME), strip(b'true'), strip(b'false')), lines(ALL_TYPES.rstrip(b'\n'), color(RED), strip(*SAMPLES.values()))]
    return inputs


LEVELS_OF_LAP = [cond(b'${A} < %s' % text, b'rgb(%s, 1, 2)' % text) for text in (b'0', b'0.2', b'0.5', b'1', b'39.5', b'300')]


def condition_inputs(source):
    """The first true one counts, whatever the others are; none may be true."""
    inputs = [under([prop(), *chosen_rows], *NUMBERS) for chosen_rows in (LEVELS_OF_LAP, LEVELS_OF_LAP[::-1], LEVELS_OF_LAP[2:3], LEVELS_OF_LAP[::2])]
    for tests in itertools.product([b'true', b'false', b'${A}', b'!${A}'], repeat=3):
        inputs.append(under([prop(b'A', b'Boolean'), *[cond(test, colour) for test, colour in zip(tests, (RED, LIME, BLUE))]], *TRUTHS))
    steps = [cond(b'${A} === %d' % i, b'rgba(%d, %d, %d, %d / 16)' % (i, 255 - i, 16 * i, i)) for i in range(16)]
    inputs += [under([prop(), *steps[:count]], *[b'%d' % i for i in range(18)]) for count in (1, 2, 15, 16)] + [under([prop(), *steps[::-1]], *[b'%d' % i for i in range(18)])]
    flagged = [prop(b'A', b'Number', b'an'), cond(b'${A} === undefined', RED), cond(b'${A} === null', LIME), cond(b'${A} === 0', BLUE)]
    inputs += [under(flagged[:n], b'', b'null', b'0', b'-0', b'1') for n in (2, 3, 4)] + [under([flagged[0], flagged[2], flagged[1]], b'', b'null', b'1')]
    # Divisions by zero are no faults, whether or not `&&` and `||` come to them.
    inputs += [under([prop(), cond(b'${A} > 0 && 1 / ${A} > 1', RED), cond(b'${A} === 0 || 1 / ${A} < -1', LIME)], *NUMBERS)]
    tests = [b'true ? ${A} > 0 : false', b'${A} > 0 ? ${A} < 40 : ${A} < -1', b'${A} > 0 === true', b'!(${A} > 0) && !(${A} < 0)', b'isNaN(${A} / 0)', b'isFinite(1 / ${A})', b'${A} >= 39', b'${A} <= 39',
        b'${A} % 2 === 1', b'1 / ${A} === -Infinity', b'${A} * 3 === 0.30000000000000', b'${A} - 5000000 < 0.5 && ${A} > 4999999']
    return inputs + [under([prop(), show(test), cond(test, RED), cond(b'!(%s)' % test, LIME)], *NUMBERS) for test in tests]


def define_inputs(source):
    """Names that hide others, and what a define's own names stand for."""
    inputs = [
        under([prop(), define(b'A', b'${A} + 1'), show(b'${A} > 1'), color(b'vec4(${A} / 4)')], *NUMBERS),
        under([prop(), define(b'B', b'${A} * 2'), define(b'A', b'${A} + 1'), color(b'vec4(${A}, ${B}, ${A} / 2, ${B} / 4)')], *NUMBERS),
        under([prop(), define(b'B', b'${A} < 1'), define(b'C', b'${B} === undefined'), show(b'${C}'), cond(b'${B}', RED), cond(b'${C}', LIME)], *NUMBERS),
        under([prop(b'A', b'String'), define(b'A', b"${A} === 'x'"), show(b'${A}')], b'=x', b'=y', b'=', b'=A'),
        under([prop(b'A', b'Number', b'a'), define(b'A', b'${A} === undefined'), show(b'${A}'), cond(b'${A}', RED), cond(b'!${A}', LIME)], b'', b'0', b'1'),
        under([prop(b'A', b'vec4'), define(b'a', b'${A} * 2'), define(b'b', b'${a} === undefined ? vec4(0.5) : vec4(1)'), cond(b'${a}.x > 1', b'${b}'), cond(b'true', b'${a}')], b'0 0 0 1', b'1 0.5 0 0.25'),
        under([prop(), define(b'true', b'${A}'), define(b'0', b'${A} / 2'), show(b'${true} > ${0}'), color(b'vec4(${0})')], *NUMBERS),
        under([prop(), define(b'd', b"${A} > 1 ? 'big' : 'small'"), show(b"${d} === 'big'"), cond(b"${d} === 'small'", RED)], *NUMBERS),
        under([prop(), define(b'c', b"${A} > 1 ? color('red') : color('#00F', 1).z > 0 ? color('#123') : color()"), color(b'${c}')], *NUMBERS),
        under([prop(b'A', b'Number', b'n'), define(b'd', b'${A} === null ? 0 : 1'), color(b'vec4(${d}, 1 - ${d}, ${d} / 2, 1)')], b'null', b'0', b'7'),
    ]
    inputs += [lines(prop(name), show(b'${%s} === undefined' % other), strip(b'1')) for name, other in ((b'Abc', b'A'), (b'A', b'A1'), (b'A', b'a'), (b'A', b'A_'), (b'a' * 64, b'a' * 63 + b'K'), (b'a' * 64, b'a' * 63), (b'A', b'Abc'), (b'A', b'_'))]
    inputs += [lines(define(b'd', b'1'), define(b'e', b'${d} < 1')), lines(define(b'd', b'1'), define(b'e', b'${d} < 1'), b'feat'), lines(prop(b'd', b'String'), define(b'd', b'1'), define(b'e', b'${d} < 1'), strip(b'=a'))]
    chain = [define(b'd%d' % i, b'${d%d} === undefined ? %d : 0' % (i - 1, i)) for i in range(1, 17)]
    inputs += [lines(*chain[:n], show(b'${d%d} === %d' % (n, n)), color(b'rgb(${d1}, ${d%d}, ${d%d} * 10)' % (n, (n + 1) // 2)), b'feat', b'feat') for n in (1, 2, 3, 15, 16)]
    inputs += [lines(prop(b'd0'), *chain[:n], show(b'${d%d} === %d' % (n, n)), strip(b'5')) for n in (1, 2)]
    for text in (b'${A} < 1', b'${B} < 1', b'${A} === ${B}', b'${none} === undefined', b'-${B} < ${A}'):
        inputs += [lines(prop(), prop(b'B', b'String', b'a'), define(b'B', b'${A}'), show(text), strip(b'0', b''), strip(b'2', b'=x')), lines(prop(), define(b'C', text), show(b'${C} === true'), strip(b'0')),
            lines(prop(), prop(b'B'), define(b'C', text), define(b'B', b'${A} > 1'), cond(b'${C} === true', RED), cond(b'${B}', LIME), strip(b'0', b'1'), strip(b'2', b'0'))]
    return inputs


# ---- colours

# Times the one a number from 2^-1021 up is the next below it, times the other it is one or two above.
LESS, MORE = b'(1 - 1 / 67108864 / 134217728)', b'(1 + 1 / 67108864 / 67108864)'
ODD = [b'NaN', b'Infinity', b'-Infinity', b'-0', b'0', b'1', b'-1', b'2', b'256', b'0.5', b'1 / 3', b'0 / 0', MORE, LESS, b'-1 / 999999999999999', b'0.00196078431372', b'0.00196078431373', b'0.99803921568627',
    b'0.99803921568628', b'999999999999999 * 999999999999999', b'0.25', b'0.75', b'254.5 / 255', b'0.5 / 255', b'127.5 / 255']


def colour_inputs(source):
    """Where a byte steps up and beside it, all bytes, and all that is clamped."""
    steps = [b'%d' % n for n in range(1, 511, 2)]
    whole = [b'%d' % n for n in range(256)]
    half = b'${A} / 510'
    inputs = [under([prop(), color(b'vec4(%s, %s * %s, %s * %s, 1 - %s)' % (half, half, LESS, half, MORE, half))], *steps)]
    inputs += [under([prop(), color(b'rgba(${A} / 2, %s * ${A} / 2, %s * ${A} / 2, ${A} / 510)' % (LESS, MORE))], *steps), under([prop(), color(b'rgba(${A}, 255 - ${A}, ${A} / 2, ${A} / 255)')], *whole),
        under([prop(), color(b'rgb(${A}, ${A} + 0.5, ${A} - 0.5)')], *whole), under([prop(), color(b'vec4(${A} / 256, ${A} / 254, ${A} / 1000, 1)')], *whole[::5]),
        under([prop(), color(b"color('#102030', ${A} / 100)")], *whole[:102], b'-1', b'-0', b'0.5'), under([prop(), color(b"color('white') * (${A} / 255)")], *whole[::3])]
    inputs += [lines(color(b'vec4(%s, %s, %s, %s)' % tuple(ODD[(i + k) % len(ODD)] for k in (0, 7, 11, 16))), b'feat') for i in range(len(ODD))]
    numbers = NUMBERS + [b'1.0', b'1.00000000000001', b'0.99999999999999', b'-0.00000000000001', b'2', b'1000', b'-1000', b'0.50000000000001', b'0.49999999999999']
    inputs += [under([prop(), color(text)], *numbers) for text in (b'vec4(${A})', b'vec4(${A}, -${A}, 1 / ${A}, ${A} * ${A})', b'vec4(${A}, 0, 0, 0)', b'vec4(0, ${A}, 0, 0)', b'vec4(0, 0, ${A}, 0)', b'vec4(0, 0, 0, ${A})',
        b'vec4(0.1, 0.2, 0.3, 0.4) * ${A}', b'mix(color(), color("black"), ${A})', b'clamp(vec4(${A}), 0, 1)', b'vec4(fract(${A}), abs(${A}), sign(${A}), round(${A}))', b'vec4(${A} % 1)', b'-vec4(${A})')]
    words = list(value_vectors.WORDS)
    inputs += [lines(prop(), *[cond(b'${A} === %d' % i, b"color('%s')" % (word.upper() if i % 3 == 0 else word.title() if i % 3 == 1 else word)) for i, word in enumerate(words)], *strips(whole[:18]))]
    texts = [b"color()", b"color('#123')", b"color('#abcdef')", b"color('#ABCDEF', 0.5)", b"color('#AbC', 2)", b"color('red', -0)", b"color('red', NaN)", b"color('red', 1 / 0)", b'color("TEAL", 0.3)', b"color((('olive')), (0.25))",
        b'rgb(0, 0, 0)', b'rgb(300, -5, 127.5)', b'rgba(1, 1, 1, 0)', b'rgba(0.5, 0.49, 254.5, 0.998)', b'vec4(vec3(0.1, 0.2, 0.3), 0.4)', b'vec4(0.4, vec3(0.1, 0.2, 0.3))', b'vec4(0.1, vec2(0.2, 0.3), 0.4)',
        b"color('red') + color('blue')", b"color('red') - color('blue')", b"color('red') * color('#808080')", b"color('red') / 3", b"vec4(color('lime').g, color('#010203').b, color('gray')[0], 1)",
        b'true ? color("red") : color("blue")', b'vec4(1, 2, 3, 4) % vec4(2, 1.5, 0, 5)', b'max(vec4(0.5), 0.25)', b'min(color(), vec4(0.1, 0.2, 0.3, 0.4))', b'vec4(dot(vec2(0.1, 0.2), vec2(0.3, 0.4)))',
        b'vec4(cross(vec3(1, 0.5, 0.2), vec3(0.1, 0.7, 0.3)), 1)', b'ceil(vec4(0.1, -0.1, 1.1, 0))', b'floor(vec4(0.9, 1.9, -0.9, 1))', b'round(vec4(0.5, 0.49999, 1.5, -0.5))']
    return inputs + [lines(color(text), b'feat') for text in texts] + [lines(cond(b'false', RED), cond(b'true', text), b'feat', b'feat') for text in texts[::4]]


# ---- values of each type

STRINGS = [b'=', b'=a', b'=A', b'=ab', b'=a ', b'= a', b"=it's", b'=\xc3\xa9', b'=\xe9', b'=\xff\x80', b'=null', b'=true', b'=1', b'==', b'=\r', b'=a\r', b'=\0', b'=\x7f', b'=red', b'=${A}', b'=' + b'x' * 255, b'=' + b'x' * 254 + b'y',
    b'=feat', b'=\\', b'=\\t', b'="a"', b"='a'", b'=a=b', b'=undefined', b'= ']


def string_inputs(source):
    """Compared by bytes with literals and with each other."""
    inputs = [under([prop(b'A', b'String'), show(b"${A} === %s" % text), cond(b"${A} !== %s" % text, RED)], *STRINGS)
        for text in (b"''", b'""', b"'a'", b'"a"', b"'A'", b"'ab'", b'"it\'s"', b"'\xc3\xa9'", b"'\xff\x80'", b"'null'", b"null", b"undefined", b"1", b"true", b"'%s'" % (b'x' * 255), b"'\\'", b"'${A}'", b"'=a'", b"' '", b"'\x7f'")]
    inputs += [under([prop(b'A', b'String', b'an'), cond(b'${A} === undefined', RED), cond(b'${A} === null', LIME), cond(b"${A} === ''", BLUE)], b'', b'null', *STRINGS)]
    two = [prop(b'A', b'String', b'a'), prop(b'B', b'String', b'n'), show(b'${A} === ${B}'), cond(b'${A} === undefined', RED), cond(b'${B} === null', LIME), cond(b'${A} !== ${B}', BLUE)]
    pairs = list(itertools.product([b'', b'=', b'=a', b'=ab', b'=b', b'=null'], [b'null', b'=', b'=a', b'=ab', b'=b', b'=null']))
    inputs += [lines(*two, *[strip(*pair) for pair in pairs]), lines(*two, *[strip(*pair) for pair in pairs[::-1]])]
    inputs += [lines(prop(b'N'), prop(b'S', b'String'), define(b'd', b"'abc'"), define(b'S', b"${N} > 1 ? ${S} : 'abc'"), show(b'${S} === ${d}'), cond(b"${d} === 'abc'", b'rgb(${N}, 2, 3)'),
        *[strip(b'%d' % i, text) for i, text in enumerate([b'=', b'=abc', b'=abc', b'=abd', b'=ab', b'=abcd'])])]
    inputs += [lines(SEVENTEEN.rstrip(b'\n'), show(b'${s0} === ${s16}'), cond(b"${s%d} === 'y'" % i, b'rgb(%d, 0, 0)' % i), strip(*[b'=x'] * 17), strip(*[b'=x'] * i, b'=y', *[b'=x'] * (16 - i)), strip(*[b'=y'] * 17)) for i in (0, 7, 16)]
    # A comparison reads no byte behind a string, nor one of the strip before.
    inputs += [under([prop(b'A', b'String'), show(b"${A} === 'abc'")], b'=abcdef', b'=abc', b'=abd', b'=ab', b'=abc', b'=', b'=abcd', b'=xabc', b'=bc')]
    return inputs + [under([prop(b'A', b'String'), color(b"${A} === 'red' ? color('red') : ${A} === 'lime' ? color('lime') : vec4(0)")], b'=red', b'=lime', b'=Red', b'=', b'=re', b'=redd')]


def vector_inputs(source):
    """Components, and operations on whole vectors."""
    twos, threes, fours = [b'0 0', b'1 -2.5', b'-0 0', b'0.1 0.2', b'3 0.5'], [b'0 0 0', b'1 -2.5 0.5', b'0.1 0.2 0.3', b'-0 -0 7'], [b'0 0 0 0', b'1 0.5 0.25 -0', b'0.1 0.2 0.3 0.4', b'2 -1 0.5 1', b'5 6 7 8']
    inputs = [under([prop(b'A', b'vec2'), color(b'vec4(${A}.%s, ${A}[%d], ${A}.%s, 1)' % picks)], *twos) for picks in ((b'x', 1, b'g'), (b'y', 0, b'r'))]
    inputs += [under([prop(b'A', b'vec3'), color(text)], *threes) for text in (b'vec4(${A}, 1)', b'vec4(1, ${A})', b'vec4(${A}.z, ${A}.b, ${A}[2], ${A}.y)', b'vec4(dot(${A}, ${A}))', b'vec4(cross(${A}, vec3(1, 2, 3)), 1)',
        b'vec4(${A} / 3, 1)', b'vec4(3 * ${A}, 1)', b'vec4(-${A}, 1)', b'vec4(vec2(${A}), 0, 1)', b'vec4(min(${A}, 0.2), 0.5)', b'vec4(mix(${A}, vec3(1), 0.25), 1)', b'vec4(${A} % vec3(0.3), 1)')]
    inputs += [under([prop(b'A', b'vec4'), color(text)], *fours) for text in (b'${A}', b'-${A}', b'+${A}', b'${A} * ${A}', b'${A} / 4', b'${A} + vec4(0.1)', b'vec4(${A}.w, ${A}.z, ${A}.y, ${A}.x)', b'vec4(${A}.a, ${A}.b, ${A}.g, ${A}.r)',
        b'vec4(${A}[3], ${A}[2], ${A}[1], ${A}[0])', b'${A}.x > 0 ? ${A} : vec4(0.5)', b'fract(${A})', b'clamp(${A}, 0.2, 0.3)')]
    for kind, texts, same in ((b'vec2', twos, b'vec2(0, 0)'), (b'vec3', threes, b'vec3(0)'), (b'vec4', fours, b'vec4(0.1, 0.2, 0.3, 0.4)')):
        inputs += [under([prop(b'A', kind, b'an'), show(b'${A} === %s' % same), cond(b'${A} === undefined', RED), cond(b'${A} === null', LIME), cond(b'${A} !== %s' % same, BLUE)], b'', b'null', *texts),
            lines(prop(b'A', kind), prop(b'B', kind), show(b'${A} === ${B}'), cond(b'${A} + ${B} === ${B} * 2', RED), *[strip(a, b) for a in texts for b in texts])]
    return inputs + [under([prop(b'A', b'vec2'), show(b'${A} === vec2(-0, 0)'), cond(b'1 / ${A}.x < 0', RED)], *twos), under([prop(b'A', b'vec2'), color(b'vec4(${A}, ${A})')], *twos), under([prop(b'A', b'vec2'), show(b'${A}.z > 1')], *twos)]


def number_inputs(source):
    """Each operation rounds once, in binary64; the rules of ECMAScript for zeros, NaN and halves."""
    numbers = NUMBERS + [b'0.3', b'2.5', b'-0.5', b'0.49999999999999', b'7', b'-7', b'999999999999999', b'1.005', b'33.3333333333333', b'4.35', b'0.7']
    tests = [b'${A} + 0.2 === 0.3', b'${A} * 3 === 0.3', b'${A} / 3 * 3 === ${A}', b'1 / ${A} < 0', b'1 / -${A} < 0', b'1 / abs(${A}) > 0', b'1 / sign(${A}) > 0', b'1 / floor(${A}) < 0', b'1 / ceil(${A}) < 0',
        b'1 / round(${A}) < 0', b'1 / fract(${A}) > 0', b'1 / min(${A}, 0) < 0', b'1 / max(${A}, -0) < 0', b'1 / (${A} % 7) < 0', b'${A} % 3 === 1', b'${A} % -3 === -1', b'round(${A}) === 3', b'round(${A}) === 0', b'floor(${A}) === -3',
        b'ceil(${A}) === -2', b'${A} - 1 - 2 === ${A} - 3', b'${A} * 100 === 435', b'${A} + 1 > ${A}', b'isNaN(${A} / ${A})', b'isFinite(${A} / 0)', b'clamp(${A}, 1, 0) === 0', b'mix(${A}, 1, 0.3) > 0.5', b'dot(${A}, ${A}) > 1',
        b'${A} === 0', b'${A} === -0', b'${A} !== ${A}', b'${A} * 0.1 === ${A} / 10', b'${A} >= 0.3', b'${A} <= 0.1', b'${A} > 5000000.2', b'max(${A}, NaN) !== 1', b'min(${A}, 0 / 0) === ${A}', b'${A} * 3 - ${A} - ${A} === ${A}']
    inputs = [under([prop(), show(test), cond(test, b'vec4(${A}, ${A} / 3, ${A} - 1, ${A} * 0.7)')], *numbers) for test in tests]
    inputs += [under([prop(), show(test)], *numbers) for test in (b'${A} / 0 <= 1', b'${A} / 0 >= 1', b'${A} / 0 < 1', b'round(${A} * %s) === 0' % LESS, b'1 / dot(${A}, 1) < 0', b'mix(${A}, 0.7, 0.3) === ${A} * 0.7 + 0.7 * 0.3',
        b'mix(${A}, 7.1, 0.1) === ${A} * (1 - 0.1) + 7.1 * 0.1', b'mix(0.3, ${A}, 0.6) === 0.3 * (1 - 0.6) + ${A} * 0.6')]
    triples = [b'0.1 0.2 0.3', b'1.1 2.3 -0.7', b'33.3 -0.001 7.77', b'-0 0 -0', b'123456.789 0.1 3', b'0.7 0.7 0.1']
    sums = [b'dot(${A}, ${B}) === ${A}.x * ${B}.x + ${A}.y * ${B}.y + ${A}.z * ${B}.z', b'cross(${A}, ${B}).x === ${A}.y * ${B}.z - ${A}.z * ${B}.y', b'cross(${A}, ${B}).y === ${A}.z * ${B}.x - ${A}.x * ${B}.z',
        b'cross(${A}, ${B}).z === ${A}.x * ${B}.y - ${A}.y * ${B}.x', b'mix(${A}, ${B}, 0.3) === ${A} * (1 - 0.3) + ${B} * 0.3', b'1 / dot(${A}, ${B}) < 0']
    inputs += [lines(prop(b'A', b'vec3'), prop(b'B', b'vec3'), show(test), *[strip(a, b) for a in triples for b in triples]) for test in sums]
    long_digits = [b'9' * 15, b'9' * 16, b'-' + b'9' * 15, b'-' + b'9' * 16, b'0.' + b'1' * 14, b'0.' + b'1' * 15, b'12345678.1234567', b'12345678.12345678', b'100000000000000', b'1000000000000000', b'0' * 2, b'1.', b'.1', b'1e3']
    return inputs + [under([prop(), show(b'${A} > 0'), color(b'vec4(${A} / 999999999999999)')], *long_digits), under([prop(b'A', b'Number', b'an'), show(b'${A} === 1')], b'', b'null', *numbers)]


# ---- refusals

GOOD_LINES = [OPTIONAL, prop(b'B', b'Boolean'), define(b'd', b'${Lap} === undefined'), define(b'e'), show(b'${d}'), cond(b'${d}', RED)]
GOOD_STRIPS = [strip(b'0.5', b'true'), strip(b'', b'false')]


def head_inputs(source):
    """Every refusal of a head on several lines and at several places; no strip is printed behind it."""
    inputs = []
    faults = [fault for number in FAULTS for fault in FAULTS[number]] + WRONG_KINDS + [b'1' + b' ' * 1024, b'#' + b' ' * 1024, b'   ', b'1   ', b"'a", b'true \xe9', b'1e3', b'${Lap}.x', b'vec4(1, 2)', b'color(Lap)']
    for i, fault in enumerate(faults):
        count = (2, 3, 4, 4, 4)[i % 5]
        inputs.append(lines(*GOOD_LINES[:count], PLACES[i % 5](b' ' * (i % 4) + fault), *GOOD_STRIPS))
    first = [FAULTS[number][-1] for number in FAULTS] + [b'-true', b'1' + b' ' * 1024]
    inputs += [lines(*GOOD_LINES[:n], define(b'x', fault) if n < 5 else cond(b'true', fault), *GOOD_STRIPS) for n in range(7) for fault in first]
    for i, fault in enumerate(fault for word in LINE_FAULTS for fault in LINE_FAULTS[word]):
        inputs += [lines(*GOOD_LINES[:i % 7], fault, *GOOD_STRIPS), lines(*GOOD_LINES[:2 + i % 3], fault, b'', *GOOD_STRIPS)]
    inputs += [lines(*GOOD_LINES[:n], fault, *GOOD_STRIPS) for n in range(7) for fault in (b'meta\tx', prop(), show(b'-'), b'feature')]
    inputs += [lines(*COLUMNS[:33], strip(*[b'1'] * 33)), lines(*DEFINES[:17], b'feat'), lines(*[cond()] * 17, b'feat'), lines(show(), show(), b'feat'), lines(color(), color(), b'feat'), lines(cond(), color(), b'feat')]
    inputs += [lines(prop(b'a' * n), strip(b'1')) for n in (64, 65)] + [lines(OPTIONAL, row(b'prop', b'B', kind, flags), strip(b'1', b'')) for kind, flags in ((b'number', b'-'), (b'Number', b'na'), (b'Number', b''), (b'vec5', b'a'))]
    inputs += [lines(OPTIONAL, make(name), strip(b'1', b'1')) for i, name in enumerate(BAD_NAMES + GOOD_NAMES) for make in (prop, define)[i % 2:i % 2 + 1]]
    inputs += [lines(prop(a), make(b), strip(b'1', b'2')) for a, b in ((b'A', b'a'), (b'ab', b'abc'), (b'a' * 64, b'a' * 63 + b'b'), (b'A', b'A')) for make in (prop, define)]
    inputs += [lines(define(b'd'), define(b'd', text), b'feat') for text in (b'1', b'2', b'-')] + [lines(prop(), prop(b'B'), prop(), strip(b'1', b'2', b'3')), lines(define(b'd'), define(b'D'), define(b'd'), b'feat')]
    inputs += [lines(prop(b'A', kind), strip(b'1')) for kind in BAD_TYPES] + [lines(prop(b'A', b'Number', flags), strip(b'1')) for flags in BAD_FLAGS]
    inputs += [lines(OPTIONAL, row(word, *RIGHT[known]), strip(b'1')) for i, word in enumerate(BAD_WORDS) for known in list(RIGHT)[i % 5:i % 5 + 1]]
    inputs += [lines(OPTIONAL, row(word, *fields), strip(b'1')) for known, fields in RIGHT.items() for word in (known.upper(), known.title(), known + b'x', known[:-1], {b'color': b'colour'}.get(known, known + b' '))]
    inputs += [lines(OPTIONAL, prop(*fields), strip(b'1', b'1')) for fields in itertools.product((b'B', b'', b'Lap'), (b'Number', b'?'), (b'a', b'?'))]
    inputs += [lines(OPTIONAL, text) for text in (define(b'!', spaced(b'1', 1025)), row(b'show', spaced(b'true', 1025), b''), define(b'x', spaced(b'!', 1025)))]
    return inputs + alone_inputs() + [lines(show(b'!' * n + b'true'), b'feat') for n in (62, 63, 64)] + [lines(show(spaced(b'true', n)), b'feat') for n in (1023, 1024, 1025)]


def alone_inputs():
    """Heads that are refused for their kinds, or just not, without a strip."""
    tests = [b'1 ? true : false', b'${Lap} ? true : false', b'${B} ? true : false', b'(${none} ? 1 : 2) === 1', b"-(true ? 'a' : 1) < 1", b"-(true ? 1 : 'a') < 1", b'true && 1', b'1 || true', b'false && 1', b'true || null',
        b'-true + -false === 1', b'-true < min(1)', b'min(-true) === 1', b'min() === 1', b'true ? true : undefined', b'true ? true : null', b'undefined', b'null', b'${none}', b'${Lap}', b'${B}', b'${B} === undefined', b'!${B}',
        b'(true ? 1 : 2) < 3', b'(true ? vec2(1) : vec3(1)).z > 1', b'(true ? vec3(1) : vec4(1)).z > 1', b'true ? -true === 1 : true', b'false && -true === 1', b'true ? 1 < 2 : 1 < null', b'1 === (2 ? 3 : 4)', b'color() === 1 && color()']
    return [lines(OPTIONAL, prop(b'B', b'Boolean', b'n'), show(test)) for test in tests] + [lines(color(text)) for text in (b'undefined', b'true ? color() : undefined', b'true ? color() : vec3(1)', b'null', b'vec3(1)', b'${none}', b'1')]


def kind_style(kind, flags):
    """What tells the values of a property apart."""
    rows = [cond(b'${A} === undefined', RED)] * (b'a' in flags) + [cond(b'${A} === null', LIME)] * (b'n' in flags)
    if flags == b'-':
        colours = {b'Number': b'vec4(${A}, -${A}, 1 / ${A}, 1)', b'vec2': b'vec4(${A}, 0, 1)', b'vec3': b'vec4(${A}, 1)', b'vec4': b'${A}', b'Boolean': b'${A} ? color() : vec4(0)'}
        rows.append(cond(b'true', colours.get(kind, BLUE)))
    return [show(b'${A} !== true')] + rows


def whole_forms(forms):
    return [form for form in forms if b'\n' not in form]


def feature_inputs(source):
    """Every form of a field under every type; then strips among others that are refused for each reason."""
    inputs = [under([prop(b'A', kind, flags), *kind_style(kind, flags)], *whole_forms(FORMS if flags == b'-' else FORMS[:25] + FORMS[50:])) for kind in TYPE_WORDS for flags in FLAG_WORDS]
    words = [b'feat', b'Feat', b'feat ', b'feats', b'feature', b'', b'prop', b'show\ttrue', b'fea', b'feat\r', b'x', b' feat', b'feat\t', b'refused', b'#', b'\xfffeat', b'define\td\t1', b'cond\ttrue\tcolor()']
    inputs += [lines(*head, b'feat' + tail, *[word + tail for word in words], b'feat' + tail) for head, tail in (([], b''), ([prop()], b'\t1'), ([prop(), prop(b'B', b'String', b'a')], b'\t1\t'))]
    counts = [lines(*COLUMNS[:n], show(b'${p0} > 1'), *[strip(*[b'%d' % (i + k) for k in range(i)]) for i in (n, n - 1, n + 1, 0, n, 2 * n)]) for n in (1, 2, 3, 31, 32)]
    five = lines(prop(b'b', b'Boolean'), prop(b'n'), prop(b's', b'String'), prop(b'v', b'vec2'), prop(b'w', b'vec4', b'an'), cond(b'${b}', b'vec4(${v}, ${n}, 1)'), cond(b"${s} === 'abc'", RED))
    good = [b'true', b'-0', b'=abc', b'1 -2.5', b'0 0 0 1']
    rows = [strip(*good), *[strip(*good[:i], bad, *good[i + 1:]) for i in range(5) for bad in (b'', b'null', b'x', b'=', b'0', b'1 2', b' ')], strip(b'false', *good[1:]), strip(*[b'x'] * 5), strip(*good[:3], b'x', b'x')]
    inputs += counts + [five + lines(*rows), five + lines(*rows[::-1]), five + lines(*rows[1::2])]
    # A refused strip leaves nothing behind, and an absent field has not the value of the strip before.
    two = [prop(b'A', b'Number', b'a'), prop(b'B'), show(b'${A} === undefined'), cond(b'${A} === 7', RED), cond(b'${B} === 7', LIME)]
    inputs += [lines(*two, strip(b'7', b'1'), strip(b'', b'1'), strip(b'7', b'x'), strip(b'', b'1'), strip(b'', b'7'), strip(b'7'), strip(b'1', b'1'), strip(b'7', b'7'), strip(b'', b'x'), strip(b'1', b'7'))]
    return inputs + [lines(prop(b'A', b'String'), show(b"${A} === 'a'"), *strips([b'=' + b'x' * n for n in (254, 255, 256, 300)] + [b'=a', b'=\xc3\xa9', b'=' + b'\xc3\xa9' * 127, b'=' + b'\xc3\xa9' * 128])), lines(*two, *[strip(b'7', b'x')] * 12)]


# ---- ends of lines and of the input

def end_inputs(source):
    """Inputs cut and joined in all ways at their lines' ends."""
    whole = lines(OPTIONAL, show(b'${Lap} === undefined'), cond(b'true', RED), strip(b'1'), strip(b''), strip(b'0.5'))
    head, behind = whole[:whole.index(b'feat')], whole[whole.index(b'feat'):]
    inputs = [whole, whole[:-1], whole + b'\n', whole + b'\n\n', whole + b' ', whole + b'\r', whole + b'\t', whole + b'\0', whole + b'feat', whole + b'feat\n', whole + b'feat\t', b'\n' + whole, b' ' + whole, b'\xef\xbb\xbf' + whole,
        whole.replace(b'\n', b'\r\n'), whole.replace(b'\n', b'\r'), whole.replace(b'\n', b'\n\n'), whole.replace(b'\n', b' \n'), whole.replace(b'\t', b' '), whole.replace(b'\n', b'\n\r')]
    inputs += [head, head[:-1], head + b'\n', head + b'\r\n', head + b'\n' + behind, head[:-1] + behind, head[:-1] + b'\r\n' + behind, head + behind.replace(b'\n', b'\r\n'), head + behind.replace(b'\n', b'\r\n')[:-1],
        head + behind.replace(b'\n', b'\n\n'), head + behind.replace(b'\n', b'\n\n')[:-1], head + behind.replace(b'\n', b'\t\n'), behind, behind[:-1], head + head + behind, whole + whole, whole + head]
    inputs += [b'', b'\n', b'\n\n', b'\r', b'\r\n', b' ', b'\t', b'\0', b'feat', b'feat\n', b'feat\n\n', b'feat\r\n', b'feat\r\nfeat\r\n', b'feat\n\r\n', b'feat\t\n', b'feat\t', b'feat\nfeat', b'feat\n\nfeat', b'feat\n \nfeat\n', b'\nfeat', b'feat\n' * 12,
        b'feat\n' * 100, b'feat\n' * 99 + b'feat', b'feat' * 2, b'feat\0', b'feat\x0bfeat\n', b'feat\x85', b'strip\tshow\tcolour\n', b'feat\nstrip\tshow\tcolour\n', b'\x1a', b'feat\n\x1a']
    for word in (b'feature', b'feats', b'feat ', b'feat\r', b'Feat', b'FEAT', b' feat', b'featfeat', b'feat,', b'fea', b'feat\0', b'"feat"', b'feat=', b'\tfeat'):
        inputs += [lines(OPTIONAL, word + b'\t1', strip(b'1')), lines(OPTIONAL, show(), strip(b'1'), word + b'\t1', strip(b'')), lines(word), lines(OPTIONAL, word + b'\t1'), b'feat\n' + word + b'\nfeat']
    inputs += [lines(define(b'feat'), prop(b'feat')), lines(prop(b'feat'), strip(b'1')), lines(show(b"'feat' === 'feat'"), b'feat'), lines(OPTIONAL, b'x\tfeat\t1', strip(b'1')), lines(show(b'1')), lines(show(b'1'))[:-1], lines(show(b'true'))[:-1]]
    inputs += [whole[:i] for i in range(1, len(whole), 9)] + [head + behind[:i] for i in range(len(behind))]
    return inputs + [lines(OPTIONAL, strip(b'1'), later, strip(b'')) for later in (OPTIONAL, prop(b'B'), show(b'false'), cond(b'true', RED), define(b'd'), b'', b'-', b'feat', b'\t')]


# ---- sizes

def padded_strips(head, sizes):
    return head + lines(*map(long_line, sizes))


def size_inputs(source):
    """Every limit at its edge, and lines that are much longer."""
    inputs = [full_head(size, end) + tail for size, end, tail in ((MOST_HEAD, b'\n', strip(*[b'true'] * 32) + b'\n'), (MOST_HEAD, b'', b''), (MOST_HEAD + 1, b'\n', b'feat\n'), (MOST_HEAD + 1, b'', b''), (MOST_HEAD - 1, b'\n', strip(*[b''] * 32)))]
    inputs += [b'x' * MOST_HEAD + b'\nfeat\n', b'x' * (MOST_HEAD - 1) + b'\nfeat\n', b'\n' * MOST_HEAD + b'feat', b'\n' * (MOST_HEAD + 1) + b'feat', b'prop\t' * 26000, lines(show(b'1')) + b'\n' * MOST_HEAD]
    shown = SEVENTEEN + lines(show(b"${s16} === 'y'"), cond(b"${s15} !== ''", RED), cond(b'true', LIME))
    inputs += [padded_strips(shown, sizes) for sizes in ((4095, 4096, 4097, 100), (4096, 4096), (4097, 4097, 4096), (4098, 300), (99, 4097))]
    inputs += [shown + long_line(size) for size in (4096, 4097)] + [shown + long_line(size) + b'\r\n' + long_line(90) for size in (4095, 4096)]
    inputs += [typed(b'String') + lines(strip(b'=a'), b'feat\t=' + b'x' * size, strip(b'=b'), b'') for size in (4090, 4091, 5000, 8192, 12288, 16384, 40000)]
    inputs += [lines(b'feat', b'x' * size, b'feat') for size in (4095, 4096, 4097, 8191, 8193, 65535, 65536, 65537)] + [lines(b'feat', b'feat' + b'\t' * size, b'feat') for size in (4092, 4093, 4200)]
    inputs += [b'feat\n' + b'y' * 131000, b'feat\t' + b'y' * 20000 + b'\nfeat', b'feat' + b'\t' * 5000 + b'\n' + b'feat\n', lines(b'feat', *[b'z' * 4097] * 5, b'feat'), b'feat\n' + (b'feat\t' * 1000 + b'\n') * 3, lines(b'feat', b'\0' * 5000, b'feat')]
    inputs += [lines(show(b'false'), b'feature' + b'x' * 9000, b'feat'), b'f' * 40000 + b'\nfeat', b'feat\n' * 3000, b'feat\n' * 2999 + b'feat']
    tall = [show(b'!' * 63 + b'true'), color(b'vec4(%s)' % b' + '.join([b'${p1}'] * 62))]
    inputs += [lines(*COLUMNS[:32], *DEFINES[:16], *tall, strip(*[b'0.1'] * 32), strip(*[b'0.01'] * 32)), lines(*COLUMNS[:32], color(b'vec4(${p0}, ${p15}, ${p30}, ${p31})'), *[strip(*[b'%d.%d' % (k, k) for k in range(i, i + 32)]) for i in (0, 5)])]
    defines = [define(b'd%d' % i, b'${p%d} * %d' % (i, i + 1)) for i in range(16)]
    conditions = [cond(b'${d%d} > 1' % (15 - i), b'rgb(%d, ${p%d}, ${d%d})' % (i, i + 16, i)) for i in range(16)]
    many = [strip(*[b'1' if k == i else b'0' for k in range(32)]) for i in range(33)]
    inputs += [lines(*COLUMNS[:32], *defines, show(b'${d0} < 1'), *conditions, *many), lines(*COLUMNS[:32], *defines, *conditions[:15], *many), lines(*COLUMNS[:31], *defines[:15], *conditions[:14], *many)]
    inputs += [lines(*COLUMNS[:32], *defines, *conditions[:8], cond(b'true', spaced(b'color()', 1024)), *many[:3])]
    dense = b' + '.join(b'(%s)' % b'+'.join([b'${p%d}' % (i % 32) for i in range(8 * j, 8 * j + 8)]) for j in range(14))
    return inputs + [lines(*COLUMNS[:32], show(b'%s > 3' % dense), *[cond(b'%s > %d' % (dense, i), b'vec4(%s)' % dense) for i in range(12)], *many[:20])]


# ---- random inputs

def declared(rows):
    """The properties of a head that is accepted."""
    fields = [line.split(b'\t') for line in rows if line[:5] == b'prop\t']
    return [Property(name, TYPE_WORDS[kind], flags.decode()) for _, name, kind, flags in fields]


def random_strip(source, properties):
    fields = [random_field(source, p).replace(b'\n', b'n') for p in properties]
    texts = [TEXTS[source.getrandbits(8) % len(TEXTS)] for _ in properties]
    small = [b'=' + text if p.kind == STRING and source.getrandbits(1) and field[:1] == b'=' else field for p, field, text in zip(properties, fields, texts)]
    return strip(*small)


def softened(source, line):
    """Its colour brought between 0 and 1, mostly, so that it is not all clamped."""
    fields = line.split(b'\t')
    if fields[0] not in (b'color', b'cond') or source.getrandbits(2) == 0:
        return line
    return row(*fields[:-1], chosen(source, [b'fract((%s) / 7)', b'abs(%s) / 100', b'(%s) * 0.1', b'mix(vec4(0.3), %s, 0.05)']) % fields[-1])


def accepted_rows(source):
    while True:
        rows = [softened(source, line) for line in random_rows(source, 0)]
        if not isinstance(Head(lines(*rows)).answer(), Refusal):
            return rows


def is_varied(rows, behind):
    found = ledger(lines(*rows, *behind)).split(b'\n')[1:-1]
    return len({line.partition(b'\t')[2] for line in found}) > 1


def random_parts(source):
    """The lines of a head that is accepted, and some strips that conform, most often not all with one answer."""
    for _ in range(4):
        rows = accepted_rows(source)
        behind = [random_strip(source, declared(rows)) for _ in range(source.getrandbits(8) % 12)]
        if is_varied(rows, behind):
            break
    return rows, behind


def random_input(source):
    """Mostly right all through; the last line may lack its end, and some strips don't conform."""
    rows, behind = random_parts(source)
    if source.getrandbits(2) == 0:
        behind = [damaged_strip(source, line) if source.getrandbits(1) else line for line in behind]
    whole = lines(*rows, *behind)
    return whole[:-1] if source.getrandbits(3) == 0 else whole


def damaged_strip(source, line):
    fields = line.split(b'\t')
    i = source.getrandbits(16) % len(fields)
    form = chosen(source, whole_forms(FORMS))
    return b'\t'.join(chosen(source, [fields[:i] + [form] + fields[i + 1:], fields[:i] + fields[i + 1:], fields[:i] + [form] + fields[i:], fields[::-1]]))


def damaged_input(source):
    """A byte, some bytes, a line of the head, or whole lines."""
    rows, behind = random_parts(source)
    way = source.getrandbits(8) % 6
    if way == 0:
        return lines(*damaged_rows(source, rows), *behind)
    if way == 1:
        mixed = rows + behind
        source.shuffle(mixed)
        return lines(*mixed)
    whole = lines(*rows, *behind)
    if way == 2:
        return whole[:source.getrandbits(16) % (len(whole) + 1)]
    if way == 3:
        i, j = sorted(source.getrandbits(16) % (len(whole) + 1) for _ in range(2))
        return whole[:i] + whole[j:]
    for _ in range(1 + source.getrandbits(1) * source.getrandbits(2)):
        whole = damaged_text(source, whole)
    return whole


def random_inputs(source):
    return [random_input(source) for _ in range(140)]


def damaged_inputs(source):
    return [damaged_input(source) for _ in range(170)]


# ---- wrong painters and wrong readings, each of which some case has to find out

def wrong(**changes):
    return type('WrongLedger', (Ledger,), changes)


def changed_head(**changes):
    return wrong(HEAD=type('WrongHead', (Head,), changes))


def changed_text(change):
    """Another ledger from the right one's lines."""
    return wrong(printed=lambda self: change(list(Ledger.printed(self))))


def on_strips(change):
    """The lines of strips after a change."""
    return wrong(strips=lambda self, lines: change(list(Ledger.strips(self, lines))))


def first_answer(found):
    """The first strip's answer, with the other numbers."""
    rest_of_first = found[0].partition(b'\t')[2] if found else b''
    return [b'%d\t%s' % (i, rest_of_first) for i, _ in enumerate(found, 1)]


def first_colour(found):
    """The first colour for every strip."""
    colours = [line.split(b'\t')[2] for line in found if b'refused' not in line]
    return [line if b'refused' in line else b'\t'.join(line.split(b'\t')[:2] + colours[:1]) for line in found]


def renumbered(kept):
    return [b'%d\t%s' % (i, line.partition(b'\t')[2]) for i, line in enumerate(kept, 1)]


def up_to_refused(found):
    return found[:next((i + 1 for i, line in enumerate(found) if b'refused' in line), len(found))]


def hidden_last(found):
    return sorted(found, key=lambda line: b'\tfalse' in line)


def last_true_row(self, names):
    return next((row for row in reversed(self.condition_rows()) if self.value(row, names).parts[0]), None)


def one_row_later(self, names):
    """The colour of the condition behind the true one, or its own if it is the last."""
    row, rows = Ledger.true_row(self, names), self.condition_rows()
    return row if row is None else min(row + 2, rows[-1])


def first_row(self, names):
    return self.condition_rows()[0]


def last_row_at_least(self, names):
    row = Ledger.true_row(self, names)
    return self.condition_rows()[-1] if row is None else row


def shown_if_coloured(self, names):
    return Ledger.shows(self, names) and self.colour(names) is not None


def without_condition(colour):
    """A colour for the strip without a true condition."""
    return wrong(colour=lambda self, names: colour if Ledger.colour(self, names) is None else Ledger.colour(self, names))


def default_colour(colour):
    """A colour for the style without colours."""
    return wrong(colour=lambda self, names: Ledger.colour(self, names) if COLOR_ROW in self.trees or COND_ROW in self.trees else colour)


def answered(change):
    """A strip's answer after a change, if it is painted."""
    def answer(self, number, line):
        found = Ledger.answer(self, number, line)
        return change(found) if isinstance(found, Painted) else found
    return wrong(answer=answer)


def kept_values(self, properties):
    """An absent field has the value of the strip before."""
    self.kept = getattr(self, 'kept', {}) | {name: v for name, v in properties.items() if v.kind != UNDEFINED}
    return Ledger.names(self, properties | self.kept)


def each_strip(self, number, line):
    """Without keeping answers."""
    self.answer_once = self.answer
    return Ledger.strip(self, number, line)


def byte_by(rule):
    """A byte by another rule, after clamping."""
    return wrong(byte=lambda self, x: rule(component(x)))


def as_bytes(rule):
    """A byte by another rule of clamping."""
    return wrong(byte=lambda self, x: rule(x))


def wrapped(x):
    return math.floor(Fraction(x) * 255 + Fraction(1, 2)) % 256 if math.isfinite(x) else 0


def single_byte(c):
    return int(as_single(as_single(c) * 255) + 0.5)


def as_single(x):
    return struct.unpack('>f', struct.pack('>f', x))[0]


def half_down(c):
    return math.ceil(Fraction(c) * 255 - Fraction(1, 2))


def worded(form):
    """A colour in another form."""
    return wrong(colour_word=lambda self, colour: b'undefined' if colour is None else form(*map(self.byte, colour)))


def none_worded(word):
    return wrong(colour_word=lambda self, colour: word if colour is None else Ledger.colour_word(self, colour))


def begun_by(is_strip):
    return wrong(is_strip=lambda self, line: is_strip(line))


def read_lines(change):
    """The input after a change of its lines."""
    return wrong(__init__=lambda self, lines: Ledger.__init__(self, change(list(lines))))


def later_lines(change):
    """The strips after a change of their lines."""
    def parted(self):
        head, strips = Ledger.parted(self)
        return head, change(list(strips))
    return wrong(parted=parted)


def split_long(found):
    """What is over the limit is the next strip."""
    return [part for line in found for part in cut_line(line)]


def cut_line(line):
    return [line[i:i + MOST_LINE] for i in range(0, len(line), MOST_LINE)]


def cut_long(found):
    """What is over the limit is left out."""
    return [line[:MOST_LINE] for line in found]


def left_out(is_left_out):
    return lambda found: [line for line in found if not is_left_out(line)]


def up_to(is_end):
    return lambda found: list(itertools.takewhile(lambda line: not is_end(line), found))


def head_anywhere(self):
    """Every line that is no strip belongs to the head."""
    found = list(self.lines)
    return b''.join(line for line in found if not self.is_strip(self.without_end(line))), [line for line in found if self.is_strip(self.without_end(line))]


def up_to_known_words(self):
    """The head ends where its words do."""
    found = list(self.lines)
    rows = list(itertools.takewhile(lambda line: line.split(b'\t')[0] in Head.COUNTS, found))
    return b''.join(rows), found[len(rows):]


def without_last_end(self):
    head, strips = Ledger.parted(self)
    return head.removesuffix(b'\n'), strips


def unchecked_alone(self):
    """A head is checked when the first strip comes."""
    head, strips = Ledger.parted(self)
    return (head if strips else b''), strips


def refused_strips(self):
    """A refused head refuses each strip as well."""
    yield self.HEADING
    self.text, found = self.parted()
    refusal = self.compiled()
    if refusal:
        yield self.refused_head(refusal)
        yield from (self.refused_strip(number, (refusal.number, refusal.place)) for number, _ in enumerate(found, 1))
        return
    yield from self.strips(found)


def no_heading_if_refused(found):
    return found[1:] if found[1:] and found[1][:7] == b'refused' else found


def refused_as(form):
    return wrong(refused_head=lambda self, refusal: form % refusal)


def strip_refused_as(form):
    return wrong(refused_strip=lambda self, number, refusal: form(number, *refusal))


def no_conditionals(self, field, scope, wanted):
    for node in nodes(tree_of(field.text)):
        if node.form == 'conditional':
            raise Refused(7, node.at)
    return Head.kinds(self, field, scope, wanted)


def any_kinds(self, field, scope, wanted):
    """All kinds are accepted."""
    try:
        return Head.kinds(self, field, scope, wanted)
    except Refused:
        return mask_of([{TO_BOOLEAN: BOOLEAN, TO_VEC4: VEC4}.get(wanted, NUMBER)])


def refused_always(self, field, scope, wanted):
    raise Refused(7, len(field.text))


def ruled(rules):
    """Expressions checked and worked out by other rules."""
    class RuledHead(Head):
        def property_kinds(self, declared):
            return rules.property_kinds(rules(Case(b'1')), declared)

        def named(self, scope):
            sets = [{name: found.kinds for name, found in names.items()} for names in (self.properties, self.defines)]
            return rules.named(rules(Case(b'1')), scope, *sets)

        def kinds(self, field, scope, wanted):
            by = rules(Case(field.text, wanted))
            try:
                found = by.kinds(tree_of(field.text), self.named(scope))
            except evaluator_vectors.Refused as refusal:
                raise Refused(7, refusal.args[0])
            if not by.is_wanted(found):
                raise Refused(7, by.end_place())
            return found
    return wrong(HEAD=RuledHead, RULES=rules)


def operated(name, gives):
    """One operation gives something else."""
    def applied(self, other, values):
        found = Rules.applied(self, other, values)
        return Value(found.kind, tuple(gives(*values))) if other == name and name not in ('===', '!==') else found
    return wrong(RULES=type('WrongRules', (Rules,), {'applied': applied}))


PAINTERS = {
    'nothing is printed': changed_text(lambda found: []),
    'the heading alone': changed_text(lambda found: found[:1]),
    'no heading': changed_text(lambda found: found[1:]),
    'no heading if the head is refused': changed_text(no_heading_if_refused),
    'no heading without strips': changed_text(lambda found: found if found[1:] else []),
    'another heading': wrong(HEADING=b'strip\tshow\tcolor\n'),
    'spaces for tabs': changed_text(lambda found: [line.replace(b'\t', b' ') for line in found]),
    'carriage returns': changed_text(lambda found: [line.replace(b'\n', b'\r\n') for line in found]),
    'no line feed at the end': changed_text(lambda found: found[:-1] + [found[-1][:-1]]),
    'an empty line at the end': changed_text(lambda found: found + [b'\n']),
    'one colour for all strips': on_strips(first_colour),
    'red for all strips': answered(lambda found: found._replace(colour=(1.0, 0.0, 0.0, 1.0))),
    'the first strip\'s answer for all': on_strips(first_answer),
    'the strip before\'s answer': on_strips(lambda found: renumbered(found[:1] + found[:-1])),
    'hidden strips left out': on_strips(lambda found: [line for line in found if b'\tfalse\t' not in line]),
    'hidden strips left out of the numbers': on_strips(lambda found: renumbered([line for line in found if b'\tfalse\t' not in line])),
    'hidden strips last': on_strips(hidden_last),
    'strips from the last on': on_strips(lambda found: renumbered(found[::-1])),
    'the last strip left out': on_strips(lambda found: found[:-1]),
    'the first strip left out': on_strips(lambda found: found[1:]),
    'refused strips left out': on_strips(lambda found: [line for line in found if b'refused' not in line]),
    'refused strips not counted': on_strips(lambda found: renumbered([line for line in found if b'refused' not in line])),
    'a refused strip ends the ledger': on_strips(up_to_refused),
    'strips numbered from 0': wrong(FIRST=0),
    'strips numbered from 2': wrong(FIRST=2),
    'ten strips at most': on_strips(lambda found: found[:10]),
    'numbers of one byte': on_strips(lambda found: [b'%d\t%s' % (i % 256, line.partition(b'\t')[2]) for i, line in enumerate(found, 1)]),
    'numbers of two digits': on_strips(lambda found: [b'%02d\t%s' % (i, line.partition(b'\t')[2]) for i, line in enumerate(found, 1)]),
    'hidden strips without colour': answered(lambda found: found if found.shows else found._replace(colour=None)),
    'hidden strips are white': answered(lambda found: found if found.shows else found._replace(colour=WHITE)),
    'hidden strips are transparent': answered(lambda found: found if found.shows or not found.colour else found._replace(colour=found.colour[:3] + (0.0,))),
    'show turned round': answered(lambda found: found._replace(shows=not found.shows)),
    'all strips show': answered(lambda found: found._replace(shows=True)),
    'no strip shows': answered(lambda found: found._replace(shows=False)),
    'without show no strip shows': wrong(shows=lambda self, names: SHOW_ROW in self.trees and Ledger.shows(self, names)),
    'without colour a strip is hidden': wrong(shows=shown_if_coloured),
    'a transparent strip is hidden': answered(lambda found: found._replace(shows=found.shows and not (found.colour and component(found.colour[3]) == 0))),
    'the last true condition': wrong(true_row=last_true_row),
    'the first condition': wrong(true_row=first_row),
    'the colour behind the true condition\'s': wrong(true_row=one_row_later),
    'the last colour if no condition is true': wrong(true_row=last_row_at_least),
    'fifteen conditions looked at': wrong(condition_rows=lambda self: Ledger.condition_rows(self)[:15]),
    'white if no condition is true': without_condition(WHITE),
    'black if no condition is true': without_condition((0.0, 0.0, 0.0, 1.0)),
    'transparent if no condition is true': without_condition((0.0, 0.0, 0.0, 0.0)),
    'no colour without color and cond': default_colour(None),
    'black without color and cond': default_colour((0.0, 0.0, 0.0, 1.0)),
    'an absent field has the value before': wrong(names=kept_values, strip=each_strip),
    'bytes cut off': byte_by(lambda c: math.floor(Fraction(c) * 255)),
    'bytes rounded up': byte_by(lambda c: math.ceil(Fraction(c) * 255)),
    'a half byte rounded down': byte_by(half_down),
    'bytes reckoned in binary64': byte_by(lambda c: int(c * 255 + 0.5)),
    'bytes rounded to even in binary64': byte_by(lambda c: round(c * 255)),
    'bytes reckoned in single precision': byte_by(single_byte),
    'bytes of 256': byte_by(lambda c: min(255, math.floor(Fraction(c) * 256))),
    'bytes of 256, rounded': byte_by(lambda c: min(255, math.floor(Fraction(c) * 256 + Fraction(1, 2)))),
    'bytes from hundredths': byte_by(lambda c: math.floor(Fraction(round(c * 100), 100) * 255 + Fraction(1, 2))),
    'NaN is 1': as_bytes(lambda x: 255 if x != x else byte_once(component(x))),
    'Infinity is 0': as_bytes(lambda x: 0 if math.isinf(x) else byte_once(component(x))),
    'bytes wrap': as_bytes(wrapped),
    'a negative component by its size': as_bytes(lambda x: byte_once(component(abs(x)))),
    'a component over 1 is a byte': as_bytes(lambda x: min(255, int(x)) if 1 < x < 2 ** 60 else byte_once(component(x))),
    'small hex digits': worded(lambda *b: b'#%02x%02x%02x%02x' % b),
    'no #': worded(lambda *b: b'%02X%02X%02X%02X' % b),
    'no alpha': worded(lambda *b: b'#%02X%02X%02X' % b[:3]),
    'no alpha if it is full': worded(lambda *b: b'#%02X%02X%02X' % b[:3] if b[3] == 255 else b'#%02X%02X%02X%02X' % b),
    'alpha first': worded(lambda *b: b'#%02X%02X%02X%02X' % (b[3:] + b[:3])),
    'blue first': worded(lambda *b: b'#%02X%02X%02X%02X' % (b[2], b[1], b[0], b[3])),
    'alpha of each strip full': worded(lambda *b: b'#%02X%02X%02XFF' % b[:3]),
    'bytes without a leading 0': worded(lambda *b: b'#%X%X%X%X' % b),
    'none for undefined': none_worded(b'none'),
    'nothing for undefined': none_worded(b''),
    'a - for undefined': none_worded(b'-'),
    'a refused head without its line': wrong(refused_head=lambda self, refusal: b'refused\t%d\t%d\n' % (refusal.number, refusal.place)),
    'place before line': wrong(refused_head=lambda self, refusal: b'refused\t%d\t%d\t%d\n' % (refusal.number, refusal.place, refusal.line)),
    'a refused head as strip 1': refused_as(b'1\trefused\t%d\t%d\t%d\n'),
    'a refused head\'s line from 0': wrong(refused_head=lambda self, refusal: b'refused\t%d\t%d\t%d\n' % (refusal.number, max(0, refusal.line - 1), refusal.place)),
    'a refused head\'s line one more': wrong(refused_head=lambda self, refusal: b'refused\t%d\t%d\t%d\n' % (refusal.number, refusal.line + 1, refusal.place)),
    'places of heads from 1': wrong(refused_head=lambda self, refusal: b'refused\t%d\t%d\t%d\n' % (refusal.number, refusal.line, refusal.place + 1)),
    'places of strips from 1': strip_refused_as(lambda number, n, place: b'%d\trefused\t%d\t%d\n' % (number, n, place + 1)),
    'places of strips at 0': strip_refused_as(lambda number, n, place: b'%d\trefused\t%d\t0\n' % (number, n)),
    'a refused strip with its line': strip_refused_as(lambda number, n, place: b'%d\trefused\t%d\t%d\t%d\n' % (number, n, number, place)),
    'a refused strip without its place': strip_refused_as(lambda number, n, place: b'%d\trefused\t%d\n' % (number, n)),
    'strips of a refused head are refused': wrong(printed=refused_strips),
    'a head without strips is not checked': wrong(parted=unchecked_alone),
}

ENDS_OF_INPUT = {
    'feature begins the strips': begun_by(lambda line: line[:4] == b'feat'),
    'feat and spaces begin the strips': begun_by(lambda line: line.split(b'\t')[0].rstrip(b' ') == b'feat'),
    'feat in any case begins the strips': begun_by(lambda line: line.split(b'\t')[0].lower() == b'feat'),
    'feat begins the strips only with a tab': begun_by(lambda line: line[:5] == b'feat\t'),
    'feat and a carriage return begin the strips': begun_by(lambda line: line.split(b'\t')[0].rstrip(b'\r') == b'feat'),
    'feat in any field begins the strips': begun_by(lambda line: b'feat' in line.split(b'\t')),
    'an empty line begins the strips': begun_by(lambda line: line == b'' or line.split(b'\t')[0] == b'feat'),
    'unknown words begin the strips': wrong(parted=up_to_known_words),
    'lines behind the strips belong to the head': wrong(parted=head_anywhere),
    'the head without its last line feed': wrong(parted=without_last_end),
    'carriage returns before line feeds taken off': read_lines(lambda found: [line.replace(b'\r\n', b'\n') for line in found]),
    'carriage returns of strips taken off': later_lines(lambda found: [line.replace(b'\r\n', b'\n') for line in found]),
    'all carriage returns taken off': read_lines(lambda found: [line.replace(b'\r', b'') for line in found]),
    'a carriage return at the end taken off': read_lines(lambda found: found[:-1] + [line.removesuffix(b'\r') for line in found[-1:]]),
    'carriage returns end lines': read_lines(lambda found: b''.join(found).replace(b'\r\n', b'\n').replace(b'\r', b'\n').splitlines(True)),
    'empty lines left out': read_lines(left_out(lambda line: line == b'\n')),
    'empty strips left out': later_lines(left_out(lambda line: line == b'\n')),
    'the last empty strip left out': later_lines(lambda found: found[:-1] if found and found[-1] == b'\n' else found),
    'an empty line ends the input': later_lines(up_to(lambda line: line == b'\n')),
    'an empty strip behind the last line feed': later_lines(lambda found: found + [b''] if found and found[-1][-1:] == b'\n' else found),
    'a last line without its end left out': read_lines(lambda found: [line for line in found if line[-1:] == b'\n']),
    'a last strip without its end left out': later_lines(lambda found: [line for line in found if line[-1:] == b'\n']),
    'a last line without its end loses a byte': wrong(without_end=lambda self, line: line[:-1]),
    'spaces at the ends of lines taken off': read_lines(lambda found: [line.rstrip(b' \n') + b'\n' for line in found]),
    'tabs at the ends of strips taken off': later_lines(lambda found: [line.rstrip(b'\t\n') + b'\n' for line in found]),
    'blank strips left out': later_lines(left_out(lambda line: not line.strip())),
    'strips of other words left out': later_lines(left_out(lambda line: line.split(b'\t')[0].rstrip(b'\n') != b'feat')),
    'another word ends the input': later_lines(up_to(lambda line: line.rstrip(b'\n').split(b'\t')[0] != b'feat')),
    'a byte order mark taken off': read_lines(lambda found: b''.join(found).removeprefix(b'\xef\xbb\xbf').splitlines(True) if b'\r' not in b''.join(found) else found),
    'a zero ends the input': read_lines(lambda found: [line + b'\n' for line in b''.join(found).split(b'\0')[0].split(b'\n') if line]),
    'byte 1A ends the input': read_lines(lambda found: [line + b'\n' for line in b''.join(found).split(b'\x1a')[0].split(b'\n')[:-1]]),
    'long strips in parts': later_lines(split_long),
    'long strips cut': later_lines(cut_long),
    'long strips left out': later_lines(left_out(lambda line: len(line.rstrip(b'\n')) > MOST_LINE)),
    'a long strip ends the input': later_lines(up_to(lambda line: len(line) > MOST_LINE + 1)),
    'a strip\'s line feed counted': wrong(strips=lambda self, found: Ledger.strips(self, [b'x' * 4097 if len(line) == 4097 else line for line in found])),
    'inputs of 64 KB': read_lines(lambda found: [line + b'\n' for line in b''.join(found)[:65536].split(b'\n') if line]),
}

KIND_RULES = {
    'every conditional is refused': changed_head(kinds=no_conditionals),
    'all kinds are accepted': changed_head(kinds=any_kinds),
    'all expressions are refused with 7': changed_head(kinds=refused_always),
    'a define\'s kinds see another define\'s': wrong(HEAD=seen(lambda properties, defines: properties | defines, lambda properties, defines: properties | defines)),
    'only show is single precision': wrong(shows=lambda self, names: Ledger.shows(self, {name: single(v) for name, v in names.items()})),
    'only colours are single precision': wrong(colour=lambda self, names: Ledger.colour(self, {name: single(v) for name, v in names.items()})),
}


# What no case can tell. A whole input has no room of its own, and its head no `feat` line; a strip in it has no line feed; the numbers at their limit need a million strips.
# An accepted style meets no kind that is not taken, so it is the same what would be made of one; and of an undeclared name only Undefined and Null can come, which are taken alike.
NOT_TOLD = {
    'head: the head\'s size before the room', 'head: room for the head is enough', 'head: room of 32,767', 'head: room of 32,769', 'head: feat ends the head', 'head: feat is left out',
    'feature: a line feed behind a number', 'feature: a line feed ends it', 'feature: a line feed taken off', 'feature: the number 1,000,000', 'feature: the number 999,999 refused', 'feature: any number',
    'feature: only the number 1,000,000 refused', 'feature: numbers of 32 bits', 'feature: numbers of 20 bits', 'feature: signed numbers', 'feature: the number 0 refused', 'feature: place of the number by itself',
    'feature: place of the number at 1,000,000', 'feature: the number before the size', 'rules: an absent number compares as NaN when it is worked out', 'rules: null is 0', 'rules: || and && need both sides',
    'rules: a conditional needs both branches', 'rules: the right side of && and || as it is', 'rules: any value is true or false', 'rules: an undeclared name is Null', 'rules: an undeclared name may be anything',
}


def all_wrong():
    """Those above, and those that the scripts for heads, features, kinds and operations have, in a whole painter."""
    found = {'painter: ' + name: by for name, by in PAINTERS.items()} | {'input: ' + name: by for name, by in ENDS_OF_INPUT.items()} | {'kinds: ' + name: by for name, by in KIND_RULES.items()}
    found |= {'head: ' + name: wrong(HEAD=by) for name, by in head_vectors.WRONG.items()} | {'feature: ' + name: wrong(FEATURE=by) for name, by in head_vectors.WRONG_FEATURES.items()}
    found |= {'rules: ' + name: ruled(by) for name, by in evaluator_vectors.WRONG.items()}
    found |= {'operation: ' + name: operated(*pair) for name, pair in value_vectors.WRONG.items() if pair[0] != '==='}
    assert NOT_TOLD <= set(found)
    return {name: by for name, by in found.items() if name not in NOT_TOLD}


def answer_of(data, by):
    """A wrong painter may come to a fault; then it prints nothing that could be compared."""
    try:
        return ledger(data, by)
    except (Fault, evaluator_vectors.Refused, LookupError, AttributeError, TypeError, ValueError):
        return None


def check_telling(answers):
    ordered = sorted(answers, key=len)
    lacking = [name for name, by in all_wrong().items() if not any(answer_of(data, by) not in (None, answers[data]) for data in ordered)]
    assert not lacking, lacking


# ---- files

FILES = {
    'sample': stated_inputs, 'styles': style_inputs, 'conditions': condition_inputs, 'defines': define_inputs, 'colours': colour_inputs, 'strings': string_inputs, 'vectors': vector_inputs,
    'numbers': number_inputs, 'heads': head_inputs, 'features': feature_inputs, 'ends': end_inputs, 'sizes': size_inputs, 'random': random_inputs, 'damaged': damaged_inputs,
}


def record(data, answer):
    assert len(data) <= MOST_BYTES and len(answer) <= MOST_BYTES
    return b'%06x %06x\n' % (len(data), len(answer)) + data + answer


def check_covered(answers):
    """Heads are refused by every number from 1 to 8, strips by 1 and 9, at many lines and places; and many inputs are painted."""
    last = [answer.split(b'\n')[-2].split(b'\t') for answer in answers.values()]
    heads = {tuple(map(int, fields[1:])) for fields in last if fields[0] == b'refused'}
    assert {number for number, _, _ in heads} == set(range(1, 9)) and len(heads) > 80
    assert all(len({line for n, line, _ in heads if n == number}) > 2 for number in range(2, 9)), heads
    rows = [line.split(b'\t') for answer in answers.values() for line in answer.split(b'\n')[1:-1]]
    assert {fields[2] for fields in rows if fields[1] == b'refused'} == {b'1', b'9'}
    colours = {fields[2] for fields in rows if fields[1] in (b'true', b'false')}
    assert len(colours) > 1000 and b'undefined' in colours


def main():
    sys.setrecursionlimit(20000)
    check_stated()
    source = random.Random(SEED)
    answers, files = {}, {}
    for name, inputs in FILES.items():
        new = {data: ledger(data) for data in distinct(inputs(source)) if data not in answers}
        answers.update(new)
        files[name] = [record(*pair) for pair in new.items()]
    assert sum(len(part) for records in files.values() for part in records) < MOST_DATA
    check_covered(answers)
    check_telling(answers)
    write('ledger_cases', files)


if __name__ == '__main__':
    main()
