#!/usr/bin/env python3
"""Cases for the crate syntax, written to crates/syntax_cases/data from the paper alone, and what the
program syntax_cases has to print of them.

The rules are those of page 01: "Sizes", "Refusal numbers" 1 to 6 and "Tokens and grammar". One
expression is judged, each number over the whole of it before the next: 1 over 1,024 bytes, 2 a byte or
token not listed, 3 a 33rd open round bracket, 4 grammar, 5 a tree higher than 64, 6 an unknown name.
Kinds are not looked at. Where page 01 leaves a point open: the end is the text's length, spaces
included; any word may be called or stand after a dot as far as the grammar goes, but no literal word
is called; a call without arguments has height 1; whatever its count, a `color` with arguments needs a
string literal as the first, brackets aside.

What the papers say of single texts (STATED) has to come out, or the script stops. So has, for every
text of few tokens, what the grammar itself says (GRAMMAR): which tokens can stand at a place, found by
Earley's method, and the tree, found by trying all ways to cut the tokens into parts. A table of wrong
readings (WRONG) has to be found out by the cases. Running it again writes the same bytes.

Every file has for each text a head line of 15 bytes, the text and a line feed, and the tree and a line
feed.
    lll n ppp tttt
The text's length, the number (0 for none) and place of its refusal, and the length of the tree, which
is empty for a refusal. All numbers are hex digits, places from 0. A tree is printed with all its
brackets: a number, string, literal word or variable as it stands in the text; (-E) (+E) (!E) for
unary operators; (L + R) for binary ones, a space on each side; (C ? A : B); name(A, B), and name()
without arguments; E[i] for a pick, i being the component's index also where a member names it.
"""
import functools
import itertools
import random
import sys
from typing import NamedTuple

from case_files import write
from lexer_vectors import BAD, EXAMPLES, PUNCTUATORS, WORDS, distinct, tokens
from value_vectors import EXTENDED, FUNCTIONS, MEMBERS, OTHER_NAMES, chosen, colour_bytes, letter_cases, member_index
from value_vectors import WORDS as COLOURS

SEED = 1
MOST_TEXT = 1024
MOST_BRACKETS = 32
MOST_HEIGHT = 64

LEVELS = [[b'||'], [b'&&'], [b'===', b'!=='], [b'<', b'<=', b'>', b'>='], [b'+', b'-'], [b'*', b'/', b'%']]
BINARY = [operator for level in LEVELS for operator in level]
UNARY = [b'+', b'-', b'!']
INDICES = [b'0', b'1', b'2', b'3']


# ---- an expression, read by the paper

class Node(NamedTuple):
    """The place and word: of a leaf or call, of an operator, `?` for a conditional, of a pick its member or index."""
    form: str
    at: int
    word: bytes
    parts: tuple = ()
    height: int = 1


class Refused(Exception):
    """By the grammar, at the token that is next."""


class Reading:
    """One text. Each of the checks gives the place of a refusal, or None."""
    LEVELS = LEVELS
    MOST_BRACKETS = MOST_BRACKETS
    MOST_HEIGHT = MOST_HEIGHT
    ORDER = [1, 2, 3, 4, 5, 6]

    def __init__(self, text):
        self.text = text
        self.next = 0
        self.tree = None

    def answer(self):
        """The number and place of the refusal and no tree, or 0, 0 and the tree."""
        checks = {1: self.size, 2: self.listed, 3: self.brackets, 4: self.grammar, 5: self.height, 6: self.names}
        for number in self.ORDER:
            place = checks[number]()
            if place is not None:
                return number, place, b''
        return 0, 0, self.shown(self.tree)

    def size(self):
        return MOST_TEXT if len(self.text) > MOST_TEXT else None

    @functools.cached_property
    def tokens(self):
        return tokens(self.text)

    def listed(self):
        return self.tokens[-1].at if self.tokens[-1].kind == 'B' else None

    def brackets(self):
        """A `)` with none open changes nothing."""
        depth = 0
        for token in self.tokens:
            if self.is_sign(token, b'('):
                depth += 1
                if depth > self.MOST_BRACKETS:
                    return token.at
            elif self.is_sign(token, b')'):
                depth = self.closed(depth)
        return None

    def closed(self, depth):
        return max(depth - 1, 0)

    # The grammar; every part begins at the next token and leaves the one behind it.

    def grammar(self):
        self.next = 0
        try:
            self.tree = self.expression()
            self.need(self.tokens[self.next].kind == 'E')
        except Refused:
            return self.place_of(self.next)
        return None

    def place_of(self, i):
        """The end is the text's length."""
        return len(self.text) if self.tokens[i].kind == 'E' else self.tokens[i].at

    def word(self, token):
        return self.text[token.at:token.end]

    def is_sign(self, token, sign):
        return token.kind == 'P' and PUNCTUATORS[token.value] == sign

    def is_one_of(self, signs):
        token = self.tokens[self.next]
        return token.kind == 'P' and PUNCTUATORS[token.value] in signs

    def need(self, allowed):
        if not allowed:
            raise Refused

    def take(self):
        self.next += 1
        return self.tokens[self.next - 1]

    def take_sign(self, sign):
        self.need(self.is_one_of([sign]))
        return self.take()

    def node(self, form, token, *parts):
        return Node(form, token.at, self.word(token), parts, self.height_over(form, [part.height for part in parts]))

    def height_over(self, form, heights):
        """A leaf and a call without arguments have 1, any other node 1 more than its highest part."""
        return 1 + max(heights, default=0)

    def expression(self):
        """A conditional nests to its right, and its middle is a whole expression."""
        test = self.binary(0)
        if not self.is_one_of([b'?']):
            return test
        sign = self.take()
        first = self.middle()
        self.take_sign(b':')
        return self.node('conditional', sign, test, first, self.right())

    def middle(self):
        return self.expression()

    def right(self):
        return self.expression()

    def binary(self, level):
        """Binary operators group to the left."""
        if level == len(self.LEVELS):
            return self.unary()
        left = self.binary(level + 1)
        while self.is_one_of(self.LEVELS[level]):
            left = self.node('binary', self.take(), left, self.binary(level + 1))
        return left

    def unary(self):
        if self.is_one_of(UNARY):
            return self.node('unary', self.take(), self.unary())
        return self.picked(self.primary())

    def picked(self, part):
        while self.is_one_of([b'.', b'[']):
            if self.is_sign(self.take(), b'.'):
                part = self.node('pick', self.member(), part)
            else:
                part = self.node('pick', self.index(), part)
                self.take_sign(b']')
        return part

    def member(self):
        """Any word, the literal words included."""
        self.need(self.tokens[self.next].kind == 'W')
        return self.take()

    def index(self):
        """One digit."""
        self.need(self.word(self.tokens[self.next]) in INDICES)
        return self.take()

    def primary(self):
        token = self.tokens[self.next]
        if self.is_sign(token, b'('):
            return self.bracketed()
        if token.kind == 'W' and not self.is_literal_word(token):
            return self.call()
        self.need(token.kind in 'NSVW')
        return self.node('leaf', self.take())

    def is_literal_word(self, token):
        return self.word(token) in WORDS

    def bracketed(self):
        self.take()
        inner = self.expression()
        self.take_sign(b')')
        return inner

    def call(self):
        name = self.take()
        self.take_sign(b'(')
        arguments = self.arguments()
        self.take_sign(b')')
        return self.node('call', name, *arguments)

    def arguments(self):
        if self.is_one_of([b')']):
            return []
        found = [self.expression()]
        while self.is_one_of([b',']):
            self.take()
            found += self.behind_comma()
        return found

    def behind_comma(self):
        return [self.expression()]

    # The tree

    def height(self):
        return 0 if self.tree.height > self.MOST_HEIGHT else None

    def names(self):
        """The leftmost by place."""
        return min(self.unknown(self.tree), default=None)

    def unknown(self, node):
        found = [place for part in node.parts for place in self.unknown(part)]
        return found + self.unknown_here(node)

    def unknown_here(self, node):
        if node.form == 'pick' and not self.is_component(node.word):
            return [node.at]
        if node.form != 'call':
            return []
        if not self.is_function(node.word):
            return [node.at]
        return self.unknown_colour(node) if node.word == b'color' and node.parts else []

    def is_component(self, word):
        return word in INDICES or word in MEMBERS

    def is_function(self, word):
        return word in FUNCTIONS

    def unknown_colour(self, call):
        """A first argument that is no string literal is placed at the word, an unknown colour at the string."""
        first = call.parts[0]
        if not self.is_string(first):
            return [call.at]
        return [] if self.is_colour(first.word[1:-1]) else [first.at]

    def is_string(self, node):
        return node.form == 'leaf' and node.word[0] in b'\'"'

    def is_colour(self, word):
        return colour_bytes(word) is not None

    def shown(self, node):
        parts = [self.shown(part) for part in node.parts]
        if node.form == 'unary':
            return b'(%s%s)' % (node.word, *parts)
        if node.form == 'binary':
            return b'(%s %s %s)' % (parts[0], node.word, parts[1])
        if node.form == 'conditional':
            return b'(%s ? %s : %s)' % (*parts,)
        if node.form == 'call':
            return b'%s(%s)' % (node.word, b', '.join(parts))
        if node.form == 'pick':
            return b'%s[%d]' % (*parts, INDICES.index(node.word) if node.word in INDICES else member_index(node.word))
        return node.word


def judged(text, reading=Reading):
    return reading(text).answer()


# ---- the grammar by itself: what can stand at a place, and the trees that a list of tokens has

# Each rule: what it is for, what it is made of, and how its tree is printed.
GRAMMAR = [
    ('expression', 'or', '{0}'), ('expression', 'or ? expression : expression', '({0} ? {2} : {4})'),
    ('or', 'and', '{0}'), ('or', 'or || and', '({0} {1} {2})'),
    ('and', 'equality', '{0}'), ('and', 'and && equality', '({0} {1} {2})'),
    ('equality', 'order', '{0}'), ('equality', 'equality === order', '({0} {1} {2})'),
    ('order', 'sum', '{0}'), ('order', 'order < sum', '({0} {1} {2})'),
    ('sum', 'product', '{0}'), ('sum', 'sum + product', '({0} {1} {2})'),
    ('product', 'unary', '{0}'), ('product', 'product * unary', '({0} {1} {2})'),
    ('unary', 'picked', '{0}'), ('unary', '+ unary', '({0}{1})'), ('unary', '! unary', '({0}{1})'),
    ('picked', 'primary', '{0}'), ('picked', 'picked . word', '{0}[{2}]'), ('picked', 'picked . literal', '{0}[{2}]'),
    ('picked', 'picked [ digit ]', '{0}[{2}]'),
    ('primary', 'leaf', '{0}'), ('primary', 'digit', '{0}'), ('primary', 'literal', '{0}'), ('primary', '( expression )', '{1}'),
    ('primary', 'word ( )', '{0}()'), ('primary', 'word ( arguments )', '{0}({2})'),
    ('arguments', 'expression', '{0}'), ('arguments', 'arguments , expression', '{0}, {2}'),
]
RULES = {}
for left_side, right_side, form in GRAMMAR:
    RULES.setdefault(left_side, []).append((tuple(right_side.split()), form))

# What the grammar calls a token: a sign by itself or the first of its level; `digit` is an index.
SIGN_CLASSES = {sign: sign for sign in PUNCTUATORS} | {operator: level[0] for level in LEVELS for operator in level}


def token_class(text, token):
    word = text[token.at:token.end]
    if token.kind == 'P':
        return SIGN_CLASSES[word].decode()
    if token.kind == 'W':
        return 'literal' if word in WORDS else 'word'
    return 'digit' if word in INDICES else 'leaf'


def completed(items, earlier):
    """Earley's items (what for, made of, how many of these are there, since which token) with all that follow from them."""
    here = len(earlier)
    todo, known = list(items), set(items)
    while todo:
        name, made_of, done, since = todo.pop()
        if done == len(made_of):
            before = known if since == here else earlier[since]
            new = [(n, m, d + 1, s) for n, m, d, s in before if d < len(m) and m[d] == name]
        else:
            new = [(made_of[done], m, 0, here) for m, _ in RULES.get(made_of[done], [])]
        new = [item for item in new if item not in known]
        known.update(new)
        todo += new
    return frozenset(known)


@functools.lru_cache(maxsize=None)
def item_sets(classes):
    """The sets before the first token and behind each; an empty one where no right expression goes on so."""
    if not classes:
        return (completed([('expression', m, 0, 0) for m, _ in RULES['expression']], []),)
    earlier = item_sets(classes[:-1])
    moved = [(n, m, d + 1, s) for n, m, d, s in earlier[-1] if d < len(m) and m[d] == classes[-1]]
    return earlier + (completed(moved, earlier),)


def is_viable(classes):
    return bool(item_sets(classes)[-1])


def is_whole(classes):
    return any(n == 'expression' and d == len(m) and s == 0 for n, m, d, s in item_sets(classes)[-1])


def first_wrong(classes):
    """The place in the list of the first token that no right expression can have there, its length for the end, None for no such."""
    for i in range(len(classes)):
        if not is_viable(classes[:i + 1]):
            return i
    return None if is_whole(classes) else len(classes)


def trees(classes, words):
    """All that the whole list can be, printed, by trying all ways to cut it into parts."""
    @functools.lru_cache(maxsize=None)
    def parts(made_of, i, j):
        """The ways to print the tokens from i up to j as these, one after the other."""
        if not made_of:
            return [()] if i == j else []
        ends = [j] if len(made_of) == 1 else range(i + 1, j)
        return [(first,) + rest for k in ends for first in one(made_of[0], i, k) for rest in parts(made_of[1:], k, j)]

    @functools.lru_cache(maxsize=None)
    def one(name, i, j):
        if name not in RULES:
            return [words[i]] if j == i + 1 and classes[i] == name else []
        return [form.format(*row) for made_of, form in RULES[name] for row in parts(made_of, i, j)]

    return one('expression', 0, len(classes))


def printed_words(text, found):
    """The words of the tokens; behind a dot the index of the member."""
    words = [text[token.at:token.end] for token in found]
    for i in range(1, len(words)):
        if words[i - 1] == b'.' and found[i].kind == 'W':
            words[i] = b'%d' % member_index(words[i])
    return [word.decode('latin-1') for word in words]


def check_grammar(text, with_tree):
    """The reading against the grammar; for a text that 1, 2 and 3 let pass."""
    reading = Reading(text)
    found = reading.tokens[:-1]
    classes = tuple(token_class(text, token) for token in found)
    wrong = first_wrong(classes)
    place = reading.grammar()
    assert place == (None if wrong is None else reading.place_of(wrong)), text
    if with_tree and wrong is None:
        assert trees(classes, printed_words(text, found)) == [reading.shown(reading.tree).decode('latin-1')], text


# A token for each class of the grammar that goes its own way in it.
SAMPLES = [b'7', b'0', b'true', b'f', b'?', b':', b'||', b'*', b'-', b'!', b'(', b')', b'[', b']', b',', b'.']
SAMPLE_CLASSES = [token_class(word, tokens(word)[0]) for word in SAMPLES]
DEEPEST = 4


def check_all_short(classes=(), words=()):
    """Every list of few tokens all but the last of which can stand there: whether the last can, and whether the end can."""
    wrong = Reading(b' '.join(words)).grammar()
    assert (wrong is None) == is_whole(classes) and (wrong is None or wrong == len(b' '.join(words))), words
    for name, word in zip(SAMPLE_CLASSES, SAMPLES):
        longer = words + (word,)
        text = b' '.join(longer)
        if not is_viable(classes + (name,)):
            assert Reading(text).grammar() == len(text) - len(word), text
        elif len(longer) <= DEEPEST:
            check_all_short(classes + (name,), longer)


# ---- what the papers say of single texts

def unary_chain(count, part=b'1'):
    """`--` would be refused."""
    return (b'-!' * count)[:count] + part


STATED = [
    # page 01: its examples
    (b'1 + 2 * 3 === 7', b'((1 + (2 * 3)) === 7)'), (b'-7 % 3', b'((-7) % 3)'), (b'${Lap} === undefined', b'(${Lap} === undefined)'),
    (b'${Lap} < 0.2', b'(${Lap} < 0.2)'), (b'true || ${Lap} < 0.2', b'(true || (${Lap} < 0.2))'), (b'vec3(1.0) / 3', b'(vec3(1.0) / 3)'),
    (b'3 / vec3(1.0)', b'(3 / vec3(1.0))'), (b'vec2(1, 2).z', b'vec2(1, 2)[2]'), (b"1 === '1'", b"(1 === '1')"), (b'NaN === NaN', b'(NaN === NaN)'),
    (b'floor(-0.5) === -1', b'(floor((-0.5)) === (-1))'), (b'round(-2.5)', b'round((-2.5))'), (b'', (4, 0)),
    (b'false ? 1 : true ? 2 : 3', b'(false ? 1 : (true ? 2 : 3))'), (b"color('red') * vec4(0.5)", b"(color('red') * vec4(0.5))"), (b'1 --1', (2, 2)),
    (b'123456789012345', b'123456789012345'), (b'1234567890123456', (2, 0)), (b'${Line} > 39', b'(${Line} > 39)'), (b"color('#0F0', 0.5)", b"color('#0F0', 0.5)"),
    (b'(' * 32 + b'1' + b')' * 32, b'1'), (b'(' * 33 + b'1' + b')' * 33, (3, 32)), (b'1 - 2 - 3', b'((1 - 2) - 3)'), (b')' + b'(' * 33, (3, 33)),
    # page 01: sizes, precedence, picks, brackets, members
    (b'1' + b' ' * 1023, b'1'), (b'1' + b' ' * 1024, (1, 1024)), (unary_chain(63), b''.join(b'(-' if i % 2 == 0 else b'(!' for i in range(63)) + b'1' + b')' * 63),
    (unary_chain(64), (5, 0)), (b'-${v}.x', b'(-${v}[0])'), (b'!${a}[3]', b'(!${a}[3])'), (b'1 ? 2 ? 3 : 4 : 5', b'(1 ? (2 ? 3 : 4) : 5)'), (b'(1 ? 2 : 3).x', b'(1 ? 2 : 3)[0]'),
    (b'1 || 2 && 3 === 4 < 5 + 6 * 7', b'(1 || (2 && (3 === (4 < (5 + (6 * 7))))))'), (b'1 * 2 + 3 < 4 === 5 && 6 || 7', b'((((((1 * 2) + 3) < 4) === 5) && 6) || 7)'),
    (b'1 < 2 === 3 < 4', b'((1 < 2) === (3 < 4))'), (b'- 1 * - 2', b'((-1) * (-2))'), (b'vec3(1.0).xy', (6, 10)), (b"color('red').r", b"color('red')[0]"),
    (b"color('red')[0]", b"color('red')[0]"), (b'sqrt(1)', (6, 0)), (b'hsl(1.0, 0.6, 0.7)', (6, 0)), (b"color('cyan', 0.5)", (6, 6)), (b"color('ReD')", b"color('ReD')"),
    (b'Vec2(1)', (6, 0)), (b'${v}.X', (6, 5)), (b'1[4]', (4, 2)),
    # the points that page 01 leaves open
    (b'   ', (4, 3)), (b'1 +  ', (4, 5)), (b'01', (4, 1)), (b'12ab', (4, 2)), (b'1.', (4, 2)), (b'-0', b'(-0)'), (b'foo + 1', (4, 4)), (b'foo', (4, 3)), (b'true(1)', (4, 4)),
    (b'1.true', (6, 2)), (b'1[1.0]', (4, 2)), (b'1[00]', (4, 3)), (b'1[ 1 ]', b'1[1]'), (b'color()', b'color()'), (b'color(1)', (6, 0)), (b'color(true)', (6, 0)),
    (b"color((('red')))", b"color('red')"), (b'color(1, 2, 3)', (6, 0)), (b"color('red', 1, 2)", b"color('red', 1, 2)"), (b"color('#12')", (6, 6)), (b"color('')", (6, 6)),
    (b'foo(1) + 1.q', (6, 0)), (b'bar(foo(1))', (6, 0)), (b'color(foo(1))', (6, 0)), (b'foo(1) +', (4, 8)), (b'foo(1) #', (2, 7)), (b'====', (2, 3)), (b'!~1', (2, 1)),
    (unary_chain(62, b'color()'), None), (unary_chain(63, b'color()'), None), (unary_chain(64, b'color()'), (5, 0)), (unary_chain(62, b"color('red')"), None),
    (unary_chain(63, b"color('red')"), (5, 0)), (unary_chain(62, b'${v}.x'), None), (unary_chain(63, b'${v}.x'), (5, 0)), (b'(' * 32 + unary_chain(63) + b')' * 32, None),
]


def check_stated():
    """A refusal's number and place, or the tree, or None for whatever tree."""
    for text, wanted in STATED:
        number, place, tree = judged(text)
        assert (wanted is None and not number) or wanted == (tree if number == 0 else (number, place)), (text, number, place, tree)


# ---- wrong readings, each of which some case has to find out

def wrong(**changes):
    return type('WrongReading', (Reading,), changes)


def grouped_right(self, level):
    if level == len(self.LEVELS):
        return self.unary()
    left = self.binary(level + 1)
    if not self.is_one_of(self.LEVELS[level]):
        return left
    return self.node('binary', self.take(), left, self.binary(level))


def nested_left(self):
    test = self.binary(0)
    while self.is_one_of([b'?']):
        sign = self.take()
        first = self.expression()
        self.take_sign(b':')
        test = self.node('conditional', sign, test, first, self.binary(0))
    return test


def no_conditional(self):
    return self.binary(0)


def picked_last(self):
    """A pick of the unary operator's result."""
    if not self.is_one_of(UNARY):
        return self.picked(self.primary())
    operator = self.take()
    part = self.unary() if self.is_one_of(UNARY) else self.primary()
    return self.picked(self.node('unary', operator, part))


def one_unary(self):
    if self.is_one_of(UNARY):
        return self.node('unary', self.take(), self.picked(self.primary()))
    return self.picked(self.primary())


def loose_unary(self):
    """Over a whole product."""
    if self.is_one_of(UNARY):
        return self.node('unary', self.take(), self.binary(len(self.LEVELS) - 1))
    return self.picked(self.primary())


def no_pick_of_leaf(self, part):
    self.need(part.form != 'leaf' or part.word[:1] == b'$' or not self.is_one_of([b'.', b'[']))
    return Reading.picked(self, part)


def counted_brackets(self):
    inner = Reading.bracketed(self)
    return inner._replace(height=inner.height + 1)


def empty_brackets(self):
    if self.is_sign(self.tokens[self.next + 1], b')'):
        token = self.take()
        self.take()
        return self.node('leaf', token)
    return Reading.bracketed(self)


def trailing_comma(self):
    return [] if self.is_one_of([b')']) else Reading.behind_comma(self)


def few_arguments(self):
    found = Reading.arguments(self)
    self.need(len(found) <= 255)
    return found


def late(self, i):
    return Reading.place_of(self, min(i + 1, len(self.tokens) - 1))


def trimmed_end(self, i):
    return len(self.text.rstrip(b' ')) if self.tokens[i].kind == 'E' else self.tokens[i].at


def end_of_last(self, i):
    return Reading.place_of(self, i) if i == 0 or self.tokens[i].kind != 'E' else self.tokens[i - 1].end


def at_the_name(self):
    """A word that is not called is refused at the word."""
    self.need(self.is_sign(self.tokens[self.next + 1], b'('))
    return Reading.call(self)


def known_names_only(self):
    """An unknown function is refused as soon as it is met."""
    self.need(self.word(self.tokens[self.next]) in FUNCTIONS)
    return Reading.call(self)


def names_before_the_end(self):
    place = Reading.grammar(self)
    if place is not None:
        words = [(i, token) for i, token in enumerate(self.tokens[:self.next]) if token.kind == 'W' and self.is_sign(self.tokens[i + 1], b'(')]
        if any(self.word(token) not in FUNCTIONS for _, token in words):
            return min(token.at for _, token in words if self.word(token) not in FUNCTIONS)
    return place


def rightmost(self):
    return max(self.unknown(self.tree), default=None)


def first_by_parts(self):
    return next(iter(self.unknown(self.tree)), None)


def outer_first(self):
    def walk(node):
        return self.unknown_here(node) + [place for part in node.parts for place in walk(part)]
    return next(iter(walk(self.tree)), None)


def functions_first(self):
    def calls(node):
        return [p for part in node.parts for p in calls(part)] + (self.unknown_here(node) if node.form == 'call' else [])
    return min(calls(self.tree), default=None) if calls(self.tree) else Reading.names(self)


def bare_string_only(self, call):
    if self.text[call.at:call.parts[0].at].count(b'(') > 1:
        return [call.at]
    return Reading.unknown_colour(self, call)


def at_the_argument(self, call):
    first = call.parts[0]
    return Reading.unknown_colour(self, call) if self.is_string(first) else [first.at]


def colour_at_the_word(self, call):
    return [call.at] if Reading.unknown_colour(self, call) else []


def colour_of_two_at_most(self, call):
    return Reading.unknown_colour(self, call) if len(call.parts) <= 2 else []


def any_literal(self, node):
    return node.form == 'leaf' and node.word[:1] != b'$'


def argument_height(self, form, heights):
    return 2 if form == 'call' and not heights else 1 + max(heights, default=0)


def first_part_height(self, form, heights):
    return 1 + max(heights[:1], default=0)


def last_part_height(self, form, heights):
    return 1 + max(heights[-1:], default=0)


def outer_parts_height(self, form, heights):
    return 1 + max(heights[:1] + heights[-1:], default=0)


def free(kind):
    return lambda self, form, heights: max(heights, default=0) + (0 if form == kind and heights else 1)


def flat_arguments(self, form, heights):
    """Each argument one more, as in a list."""
    if form == 'call' and heights:
        return 1 + max(h + i for i, h in enumerate(heights))
    return 1 + max(heights, default=0)


def levels(*numbers):
    """The levels by number, those that stand together as one."""
    return [[operator for n in group for operator in LEVELS[n]] for group in numbers]


WRONG = {
    'binary operators to the right': wrong(binary=grouped_right),
    'conditional to the left': wrong(expression=nested_left),
    'conditional without another in its middle': wrong(middle=no_conditional),
    'conditional without another to its right': wrong(right=no_conditional),
    '-v.x as (-v).x': wrong(unary=picked_last),
    'one unary operator': wrong(unary=one_unary),
    'unary operators over products': wrong(unary=loose_unary),
    'no pick of a literal': wrong(picked=no_pick_of_leaf),
    '|| and && at one level': wrong(LEVELS=levels([0, 1], [2], [3], [4], [5])),
    '|| above &&': wrong(LEVELS=levels([1], [0], [2], [3], [4], [5])),
    '&& and equality at one level': wrong(LEVELS=levels([0], [1, 2], [3], [4], [5])),
    'equality and order at one level': wrong(LEVELS=levels([0], [1], [2, 3], [4], [5])),
    'order below equality': wrong(LEVELS=levels([0], [1], [3], [2], [4], [5])),
    'order and sums at one level': wrong(LEVELS=levels([0], [1], [2], [3, 4], [5])),
    'sums and products at one level': wrong(LEVELS=levels([0], [1], [2], [3], [4, 5])),
    '% with the sums': wrong(LEVELS=LEVELS[:4] + [[b'+', b'-', b'%'], [b'*', b'/']]),
    '!== above ===': wrong(LEVELS=LEVELS[:2] + [[b'==='], [b'!==']] + LEVELS[3:]),
    'brackets counted in the height': wrong(bracketed=counted_brackets),
    'empty brackets': wrong(bracketed=empty_brackets),
    'a comma behind the last argument': wrong(behind_comma=trailing_comma),
    'at most 255 arguments': wrong(arguments=few_arguments),
    'place of 4 a token late': wrong(place_of=late),
    'place of the end without spaces': wrong(place_of=trimmed_end),
    'place of the end behind the last token': wrong(place_of=end_of_last),
    'a word alone refused at the word': wrong(call=at_the_name),
    'an unknown function refused 4': wrong(call=known_names_only),
    'an unknown function before the grammar': wrong(grammar=names_before_the_end),
    'a literal word called': wrong(is_literal_word=lambda self, token: self.word(token) in WORDS and not self.is_sign(self.tokens[self.next + 1], b'(')),
    'a word alone is a leaf': wrong(is_literal_word=lambda self, token: not self.is_sign(self.tokens[self.next + 1], b'(')),
    'a literal word as member refused 4': wrong(member=lambda self: self.need(self.word(self.tokens[self.next]) not in WORDS) or Reading.member(self)),
    'an unknown member refused 4': wrong(member=lambda self: self.need(self.word(self.tokens[self.next]) in MEMBERS) or Reading.member(self)),
    'any digit as index': wrong(index=lambda self: self.need(len(self.word(self.tokens[self.next])) == 1 and self.tokens[self.next].kind == 'N') or self.take()),
    'any number as index': wrong(index=lambda self: self.need(self.tokens[self.next].kind == 'N') or self.take()),
    'a string as index': wrong(index=lambda self: self.take() if self.tokens[self.next].kind == 'S' else Reading.index(self)),
    'an index over 3 refused 6': wrong(index=lambda self: self.need(self.tokens[self.next].kind == 'N') or self.take(), is_component=lambda self, word: word in INDICES + MEMBERS),
    'rightmost name': wrong(names=rightmost),
    'first name by parts before the whole': wrong(names=first_by_parts),
    'first name by the whole before its parts': wrong(names=outer_first),
    'functions before members': wrong(names=functions_first),
    'swizzles': wrong(is_component=lambda self, word: word in INDICES or all(bytes([b]) in MEMBERS for b in word)),
    'members in any case': wrong(is_component=lambda self, word: word.lower() in INDICES + MEMBERS),
    'functions in any case': wrong(is_function=lambda self, word: word.lower() in [f.lower() for f in FUNCTIONS]),
    'colours in small letters only': wrong(is_colour=lambda self, word: Reading.is_colour(self, word) and (word[:1] == b'#' or word == word.lower())),
    'any colour with #': wrong(is_colour=lambda self, word: Reading.is_colour(self, word) or word[:1] == b'#'),
    'extended words': wrong(is_colour=lambda self, word: Reading.is_colour(self, word) or word in EXTENDED),
    'hex digits without #': wrong(is_colour=lambda self, word: Reading.is_colour(self, word) or Reading.is_colour(self, b'#' + word)),
    'brackets not passed over': wrong(unknown_colour=bare_string_only),
    'no string: at the argument': wrong(unknown_colour=at_the_argument),
    'unknown colour: at the word': wrong(unknown_colour=colour_at_the_word),
    'color of three unchecked': wrong(unknown_colour=colour_of_two_at_most),
    'any string in color': wrong(unknown_colour=lambda self, call: [] if self.is_string(call.parts[0]) else [call.at]),
    'anything in color': wrong(unknown_colour=lambda self, call: []),
    'any literal in color': wrong(is_string=any_literal),
    'height of a call without arguments 2': wrong(height_over=argument_height),
    'height of the first part': wrong(height_over=first_part_height),
    'height of the last part': wrong(height_over=last_part_height),
    'height of the outer parts': wrong(height_over=outer_parts_height),
    'height of unary operators left out': wrong(height_over=free('unary')),
    'height of binary operators left out': wrong(height_over=free('binary')),
    'height of conditionals left out': wrong(height_over=free('conditional')),
    'height of calls left out': wrong(height_over=free('call')),
    'height of picks left out': wrong(height_over=free('pick')),
    'height of arguments as a list': wrong(height_over=flat_arguments),
    'height 63 at most': wrong(MOST_HEIGHT=63),
    'height 65 at most': wrong(MOST_HEIGHT=65),
    'place of 5 at the root': wrong(height=lambda self: self.tree.at if self.tree.height > MOST_HEIGHT else None),
    '31 brackets at most': wrong(MOST_BRACKETS=31),
    '33 brackets at most': wrong(MOST_BRACKETS=33),
    'brackets below none': wrong(closed=lambda self, depth: depth - 1),
    'brackets never closed': wrong(closed=lambda self, depth: depth),
    '1,023 bytes at most': wrong(size=lambda self: 1024 if len(self.text) > 1023 else None),
    '1,025 bytes at most': wrong(size=lambda self: 1024 if len(self.text) > 1025 else None),
    'size without spaces at the end': wrong(size=lambda self: 1024 if len(self.text.rstrip(b' ')) > 1024 else None),
    'size at its length': wrong(size=lambda self: len(self.text) if len(self.text) > 1024 else None),
    '2 before 1': wrong(ORDER=[2, 1, 3, 4, 5, 6]),
    '3 before 2': wrong(ORDER=[1, 3, 2, 4, 5, 6]),
    '4 before 3': wrong(ORDER=[1, 2, 4, 3, 5, 6]),
    '6 before 5': wrong(ORDER=[1, 2, 3, 4, 6, 5]),
    'no 3': wrong(ORDER=[1, 2, 4, 5, 6]),
    'no 5': wrong(ORDER=[1, 2, 3, 4, 6]),
    'no 6': wrong(ORDER=[1, 2, 3, 4, 5]),
}


def answer_of(text, reading):
    """A wrong reading may go past the end or show an unknown name; then it differs from the right one all the same."""
    try:
        return judged(text, reading)
    except (IndexError, ValueError, TypeError):
        return None


def check_telling(answers):
    """The shortest text first that finds a wrong reading out."""
    ordered = sorted(answers, key=len)
    for name, reading in WRONG.items():
        assert any(answer_of(text, reading) != answers[text] for text in ordered), name


# ---- texts; each list has the source of random numbers, whether or not it draws on it

def spaced(words):
    return b' '.join(words)


@functools.lru_cache(maxsize=None)
def part_by_themselves(a, b):
    """Whether two words are the same two tokens with no space between them."""
    return [(t.at, t.end) for t in tokens(a + b)[:2]] == [(0, len(a)), (len(a), len(a + b))]


def joined(source, words, gaps):
    """A space where the words need one, and elsewhere in about `gaps` of 16 places one or more."""
    text = b''
    for i, word in enumerate(words):
        if i > 0 and not part_by_themselves(words[i - 1], word):
            text += b' '
        while source.getrandbits(4) < gaps:
            text += b' '
        text += word
    return text


LEAVES = [b'1', b'2', b'7', b'0', b'3', b'12.5', b'0.25', b'100', b'true', b'false', b'null', b'undefined', b'NaN', b'Infinity', b'${a}', b'${b}', b'${Lap}', b'${x_1}',
          b"'s'", b'"t u"', b"''", b"'('", b'"?"', b"'red'"]
COLOUR_STRINGS = [b"'red'", b'"BLUE"', b"'#0F0'", b"'#13293D'", b"'Teal'"]


def some_call(source, depth):
    name = chosen(source, FUNCTIONS)
    arguments = [some_words(source, depth) for _ in range(source.getrandbits(4) % 5)]
    if name == b'color' and arguments:
        string = [chosen(source, COLOUR_STRINGS)]
        arguments[0] = [b'('] + string + [b')'] if source.getrandbits(2) == 0 else string
    return [name, b'('] + [word for i, argument in enumerate(arguments) for word in ([b','] if i else []) + argument] + [b')']


def some_words(source, depth):
    """The words of a right expression."""
    def part():
        return some_words(source, depth - 1)
    form = source.getrandbits(8) % 20
    if depth == 0 or form < 3:
        return [chosen(source, LEAVES)]
    if form < 9:
        return part() + [chosen(source, BINARY)] + part()
    if form < 11:
        return [chosen(source, UNARY)] + part()
    if form < 13:
        return part() + [b'?'] + part() + [b':'] + part()
    if form < 15:
        return [b'('] + part() + [b')']
    if form < 17:
        return part() + ([b'.', chosen(source, MEMBERS)] if source.getrandbits(1) else [b'[', chosen(source, INDICES), b']'])
    return some_call(source, depth - 1)


def right_words(source, most):
    """Of up to that many words."""
    while True:
        words = some_words(source, 1 + source.getrandbits(8) % 5)
        if len(words) <= most and len(spaced(words)) <= MOST_TEXT and words.count(b'(') <= MOST_BRACKETS:
            return words


OTHER_EXAMPLES = """
(RegExp('^Chest').test(${County})) && (${YearBuilt} >= 1970)
${Height}/2.0
color('#0000FF)
color('#FF0000)
color('#00FFFF)
'abc' =~ RegExp('a')
'bcd' !~ RegExp('a')
${Height} >= 100.0
isNaN(0.0)
color('cyan', 0.5)
color('cyan')
color('#00FFFF')
color('#0FF')
color('red').r
hsla(1.0, 0.6, 0.7, 0.75)
(isNaN(0.0), color('cyan', 0.5))
true || ${Lap} < 0.2 ? 1 : 2
vec4(0.5, 0.0, 0.0, 0.5)
regExp()
regExp('^Chest')
RegExp('a').test('abc')
sqrt(${temperature})
cos(${Angle}) > 0.0
cos(${Angle} + Math.PI)
Math.PI
Math.E / 2.0
pow(${Density}, ${Temperature}) > 1.0
length(${Dimensions}) > 10.0
distance(${BottomRight}, ${UpperLeft}) > 50.0
normalize(${RightVector}, ${UpVector}) > 0.5
${temperature} >= 0.5
max(${Width}, ${Height}) > 10.0
${COLOR} * color('red')
~1
1 | 2
1 ^ 2
1 & 2
1 << 2
1 >> 2
1 >>> 2
/* comment */ 1
1 // comment
false ? leftExpression : rightExpression
(1.0, 0.0, 0.0, 1.0)
vec2(1, 2)
5.0
rgba(${red}, ${green}, ${blue}, ${alpha})
${POSITION}
"""


def example_texts(source):
    """What the papers show, and what they state."""
    lines = [line.encode() for line in (EXAMPLES + OTHER_EXAMPLES).strip('\n').split('\n')]
    return [line for line in lines if line] + [text for text, _ in STATED]


def short_texts(source):
    """All lists of up to three of the samples."""
    return [spaced(words) for n in range(1, 4) for words in itertools.product(SAMPLES, repeat=n)]


def grouping_texts(source):
    """Two binary operators in every pair and order, plain and bracketed; one operator of each level in every three; longer rows."""
    texts = []
    for a, b in itertools.product(BINARY, BINARY):
        texts += [b'1 %s 2 %s 3' % (a, b), b'(1 %s 2) %s 3' % (a, b), b'1 %s (2 %s 3)' % (a, b)]
    texts += [b'${a}%s${b}%s${c}%s${d}' % (a, b, c) for a, b, c in itertools.product([level[-1] for level in LEVELS], repeat=3)]
    for n in (4, 5, 6, 8, 12):
        for _ in range(40):
            texts.append(spaced([b'1'] + [word for i in range(n) for word in (chosen(source, BINARY), b'%d' % (i + 2))]))
    for level in LEVELS:
        texts += [spaced([b'1'] + [word for i in range(n) for word in (chosen(source, level), b'%d' % (i + 2))]) for n in range(2, 12)]
    return texts


def unary_texts(source):
    """Up to three unary operators, with and without spaces, over all kinds of part; beside binary operators; over picks."""
    parts = [b'1', b'${v}.x', b'(1).y', b'abs(1)[0]', b'(1 + 2)', b'1 * 2', b'1 ? 2 : 3', b"'s'", b'true.w', b'']
    rows = [row for n in (1, 2, 3) for row in itertools.product(UNARY, repeat=n)]
    texts = [gap.join(row) + gap + part for row in rows for part in parts for gap in (b' ', b'')]
    for sign, operator in itertools.product(UNARY, BINARY):
        texts += [b'%s1 %s 2' % (sign, operator), b'1 %s %s2' % (operator, sign), b'%s1 %s %s2' % (sign, operator, sign), b'%s(1 %s 2)' % (sign, operator)]
        texts += [b'1%s%s2' % (operator, sign), b'%s${v}.x %s 2' % (sign, operator), b'1 %s %s${v}[1] ' % (operator, sign)]
    return texts + [b'%s %s 1' % (sign, operator) for sign in UNARY for operator in BINARY if operator not in UNARY]


PRIMARIES = [b'1', b'1.5', b"'s'", b'"s"', b'${v}', b'true', b'NaN', b'vec2(1, 2)', b'color()', b'(1)', b'(${v})', b'(1 + 2)']


def pick_texts(source):
    after = [b'.' + member for member in MEMBERS] + [b'[%s]' % index for index in INDICES]
    texts = [primary + pick for primary in PRIMARIES for pick in after]
    texts += [b'${v}' + a + b for a in after for b in after]
    texts += [primary + pick for primary in PRIMARIES for pick in (b' . x', b' [ 0 ]', b'. x', b'[0 ]', b'.', b'[', b'[]', b'[0', b'[0 0]', b'[4]', b'[9]', b'[10]', b'[01]', b'[00]')]
    texts += [primary + pick for primary in PRIMARIES for pick in (b'[1.0]', b'[0.0]', b'[-1]', b'[+0]', b'[x]', b"['x']", b'[${i}]', b'[(0)]', b'[true]', b'[0,1]', b'[0?1:2]', b']')]
    texts += [primary + pick for primary in PRIMARIES for pick in (b'..x', b'.(x)', b'.5', b'.1x', b".'x'", b'.${x}', b'.[0]', b'.x.', b'.x[', b'.x y', b'.x(1)', b'.x()', b'[0](1)')]
    texts += [primary + b'.' + word for primary in PRIMARIES[4:9] for word in WORDS + [b'xy', b'rgba', b'X', b'R', b'xx', b'alpha', b'x1', b'_', b'vec2', b'length', b'toString']]
    texts += [b'.x', b'[0]', b'x', b'x.x', b'x[0]', b'vec2.x', b'x.vec2', b'.', b'[', b']', b'[0][0]', b'- .x', b'-[0]', b'1.x.x.x', b'1[0][1][2][3]', b'${a}.x + ${b}.y * ${c}.z']
    return texts + [b'1%s.x' % operator for operator in BINARY] + [b'1.x%s2[0]' % operator for operator in BINARY] + [b'1[0]%s.x' % sign for sign in UNARY]


def conditional_texts(source):
    """Every row of up to seven `?` and `:` with operands between, and what stands beside and in conditionals."""
    texts = [b'0' + b''.join(b' %s %d' % (sign, i + 1) for i, sign in enumerate(row)) for n in range(1, 8) for row in itertools.product((b'?', b':'), repeat=n)]
    inner = [b'5 ? 6 : 7', b'(5 ? 6 : 7)', b'-5', b'5 || 6', b'abs(5)', b'abs(5 ? 6 : 7)', b'${v}.x', b'(5)', b'5 ? (6 ? 7 : 8) : 9', b'', b'?', b':', b'5 6', b'5,6', b')', b'foo']
    for part in inner:
        texts += [part + b' ? 1 : 2', b'1 ? ' + part + b' : 2', b'1 ? 2 : ' + part, b'(1 ? 2 : ' + part + b')', b'abs(1 ? ' + part + b' : 2)', b'min(3, ' + part + b' ? 1 : 2)']
        texts += [b'(' + part + b') ? 1 : 2', b'1 ? (' + part + b') : 2', b'1 ? 2 : (' + part + b')', b'(1 ? 2 : 3) ? ' + part + b' : 4', b'1?' + part + b'?3:4:5']
    for operator in BINARY:
        texts += [b'1 %s 2 ? 3 : 4' % operator, b'1 ? 2 %s 3 : 4' % operator, b'1 ? 2 : 3 %s 4' % operator, b'1 ? 2 : 3 %s 4 ? 5 : 6' % operator, b'(1 ? 2 : 3) %s 4' % operator]
        texts += [b'1 %s (2 ? 3 : 4)' % operator, b'1 %s 2 ? 3 %s 4 : 5 %s 6' % ((operator,) * 3), b'1 ? 2 %s : 3' % operator, b'1 %s ? 2 : 3' % operator, b'1 ? %s 2 : 3' % operator]
    texts += [b'%s1 ? %s2 : %s3' % ((sign,) * 3) for sign in UNARY] + [b'%s(1 ? 2 : 3)' % sign for sign in UNARY] + [b'1 ? 2 : 3.x', b'(1 ? 2 : 3)[1]', b'1.x ? 2.y : 3[0]']
    return texts + [b'1?2:3', b'1 ?2 :3', b'1? 2: 3', b'?', b':', b'? :', b'?:', b'1 ?: 2', b'1 ? : ', b'1 ? 2 : 3)', b'(1 ? 2) : 3', b'(1 ? 2 : )3', b'1 ? (2 : 3)', b'1 ? 2 : 3,']


def call_texts(source):
    rows = [b'', b'1', b'1,2', b'1, 2, 3', b'1 , 2 ,3, 4', b'1, 2, 3, 4, 5', b'(1), ((2))', b'1 ? 2 : 3, 4', b'-1, !2', b'1 + 2, 3 * 4']
    texts = [name + b'(' + row + b')' for name in FUNCTIONS if name != b'color' for row in rows]
    texts += [b"color('red'%s)" % (b', 1' * n) for n in range(6)] + [b"color ( 'red' , 1 )", b'color ( )', b'color( )']
    texts += [b'min(' + b','.join([b'%d' % (i % 10) for i in range(n)]) + b')' for n in (6, 7, 8, 9, 10, 16, 17, 31, 32, 33, 63, 64, 65, 66, 100, 127, 128, 129, 200, 254, 255, 256, 257, 300, 500)]
    texts += [b'max(' + b', '.join([chosen(source, LEAVES) for _ in range(n)]) + b')' for n in (12, 40, 80)]
    wrong_rows = [b',', b'1,', b',1', b'1,,2', b'1 2', b'1;2', b'1', b'(1', b'1,(2', b'1,2,', b',,', b'1]', b'1?2', b'1:2', b'1,2:3', b'+', b'1+', b'.x', b'foo', b'foo,1', b'1,foo', b'true(', b'(,)', b'()']
    texts += [name + b'(' + row + end for name in (b'min', b'foo', b'color') for row in wrong_rows for end in (b')', b'', b'))', b') 1')]
    callers = [b'1', b"'s'", b'${a}', b'(min)', b'(1)', b'min(1)', b'1.x', b'1[0]', b'-', b'!'] + WORDS
    texts += [caller + gap + b'(1)' for caller in callers for gap in (b'', b' ')]
    texts += [b'min', b'min (1)', b'min  (  )', b'min)', b'min(', b'min((1))', b'min((1), 2)', b'min((1, 2))', b'min(1)(2)', b'min.x(1)', b'min[0]', b'min = 1', b'min 1', b'min min(1)', b'-min(1)', b'min(-1)']
    texts += [b'min(max(1, 2), abs(3))', b'min(min(min(min(1))))', b'min(min(), min(min(), min()), min())', b'min(1).x', b'min(1)[0]', b'min(1.x, 2[1])', b'min(1) + max(2) * abs(3)']
    return texts + [b'min(%s, %s)' % pair for pair in itertools.product(PRIMARIES, PRIMARIES[:6])]


def bracket_texts(source):
    texts = [b'(' * n + part + b')' * m for n in (0, 1, 2, 3) for m in (0, 1, 2, 3) for part in (b'', b'1', b'1 + 2', b'foo', b'${a}.x')]
    for n in (8, 31, 32, 33, 34):
        texts += [b'(' * n + b'1' + b')' * n, b'(' * n, b'(' * n + b'1', b'abs(' * n + b'1' + b')' * n, b'(1+' * n + b'1' + b')' * n, b'(-' * n + b'1' + b')' * n, b'(' * n + b'1' + b')' * (n - 1)]
        texts += [b'(' * n + b'1' + b')' * (n + 1), b'(' * n + b'1' + b').x' * n, b'(1)+' * n + b'1', b'min(' + b'(1),' * n + b'1)', b'(' * (n - 1) + b'1' + b')' * (n - 1) + b'+(1)', b')' * n]
        texts += [b'((' + b'1' + b'))+' + b'(' * n + b'2' + b')' * n, b'[' * n, b"'" + b'(' * n + b"'", b'abs(' * n + b')' * n, b'(1?' * n + b'1' + b':1)' * n, b'1+(' * n + b'1' + b')' * n]
    texts += [b'(%s %s %s)' % (a, operator, b) for operator in BINARY for a, b in ((b'1', b'2'), (b'(1)', b'((2))'), (b'(1', b'2)'), (b'1)', b'(2'))]
    return texts + [b'()', b'( )', b'(())', b'()1', b'1()', b'(1)(2)', b'(1) (2)', b'(1)2', b'1(2)', b'(1]', b'[1)', b'([1])', b'(1)[0]', b'((1)[0])', b'(1[0)]', b'(,)', b'(1,2)', b'(.x)', b'(+)', b'(?)', b'(1 ?)', b'{1}']


def name_texts(source):
    """6: names known and not, several at once, and colours."""
    texts = [name + b'(1)' for name in OTHER_NAMES if name not in WORDS and name[:1] not in b'0123456789'] + [b'1.' + name for name in OTHER_NAMES if name[:1] not in b'0123456789']
    for name in FUNCTIONS:
        texts += [form + b'()' for form in (name.upper(), name.capitalize(), name + b'1', name + b'_', b'_' + name, name[:-1], name + name)] + [b'1.' + name]
    some = [b'foo(1)', b'1.q', b'color(1)', b"color('rad')", b"color('red')", b'abs(1)', b'1.x', b'bar()', b'color(${a})', b"color(('#12'), 1)"]
    texts += [b'%s + %s' % pair for pair in itertools.product(some, some)] + [b'%s ? %s : %s' % row for row in itertools.product(some[:5], repeat=3)]
    texts += [b'foo(%s)' % part for part in some] + [b'(%s).q' % part for part in some] + [b'color(%s)' % part for part in some] + [b"color('red', %s)" % part for part in some]
    texts += [b'min(%s, %s)' % pair for pair in itertools.product(some, some)] + [b'-%s' % part for part in some] + [b'%s.q' % part for part in some] + [b'%s[0].q.x' % part for part in some]
    # far behind: more commas before the name than a tree may be high
    texts += [b'min(' + b'1,' * n + part + b')' for n in (63, 64, 65, 100, 300) for part in some]
    return texts + color_texts(source)


def color_texts(source):
    words = [case for word in COLOURS for case in letter_cases(word)[:5]] + EXTENDED + [b'', b' ', b' red', b'red ', b're', b'redd', b'red\xff', b'r\xc3\xa9d']
    words += b'#0F0 #0f0 #00FF00 #13293D #abcdef #ABCDEF # #1 #12 #1234 #12345 #1234567 #12345678 #ggg #00000g ##123 123 0F0 00FF00 #-12 #12\xff'.split()
    texts = [b"color('%s')" % word for word in words]
    for word in (b'red', b'RED', b'rad', b'#0F0', b'#0F', b''):
        texts += [b'color("%s")' % word, b"color( '%s' )" % word, b"color(('%s'))" % word, b"color((('%s')), 0.5)" % word, b"color('%s', 1, 2)" % word, b"1 + color('%s').r" % word, b"color((( '%s' )))" % word]
        texts += [b"color('%s', color('%s'))" % (word, other) for other in (b'red', b'rad')] + [b"color((('%s')), color(1))" % word, b"vec4('%s')" % word, b"Color('%s')" % word, b"color(\"'%s'\")" % word]
    firsts = PRIMARIES + [b"'red'.x", b"-'red'", b"'red' + 'red'", b"true ? 'red' : 'red'", b"color('red')", b"abs('red')", b"('red').x", b"(true ? 'red' : 'blue')", b"!'red'", b'${red}', b'red', b'(red)']
    return texts + [b'color(%s)' % first for first in firsts] + [b"color(%s, 'red')" % first for first in firsts] + [b"color((%s), 1, 2)" % first for first in firsts]


# What makes a tree one higher: its text has the part in brackets, which count for nothing.
AROUND = [b'-(%s)', b'!(%s)', b'(%s)+1', b'1+(%s)', b'(%s)||1', b'1||(%s)', b'(%s)?1:1', b'1?(%s):1', b'1?1:(%s)', b'abs(%s)', b'min(%s,1)', b'min(1,%s)', b'min(1,%s,1)', b'(%s).x', b'(%s)[3]']


def chain(kind, height):
    """Without brackets, of that height."""
    n = height - 1
    return {
        'unary': unary_chain(n), 'spaced': b'- ' * n + b'1', 'left': b'1' + b'-1' * n, 'product': b'1' + b'*1' * n, 'picks': b'1' + b'.x' * n, 'indices': b'1' + b'[0]' * n,
        'right': b'1?1:' * n + b'1', 'middle': b'1?' * n + b'1' + b':1' * n, 'bare': unary_chain(n, b'color()'),
    }[kind]


CHAINS = ['unary', 'spaced', 'left', 'product', 'picks', 'indices', 'right', 'middle', 'bare']


def rising(height):
    """Each level of precedence on the right of the one below, and then brackets."""
    text = b'1'
    while height > 7:
        text, height = b'1||1&&1===1<1+1*-(%s)' % text, height - 7
    return unary_chain(height - 1, b'(%s)' % text)


def random_tall(source, height):
    inner = 34 + source.getrandbits(8) % 25
    text = chain(chosen(source, CHAINS), inner)
    for _ in range(height - inner):
        text = chosen(source, AROUND) % text
    return text


def height_texts(source):
    texts = [chain(kind, height) for kind in CHAINS for height in (2, 33, 62, 63, 64, 65, 66, 67, 128)] + [rising(height) for height in range(60, 70)]
    for around in AROUND:
        for times, height in itertools.product((1, 4, 31), (63, 64, 65)):
            text = chain(CHAINS[(times + height) % len(CHAINS)], height - times)
            for _ in range(times):
                text = around % text
            texts.append(text)
    for height in (63, 64, 65, 66):
        for kind in CHAINS:
            text = chain(kind, height - 1)
            texts += [b'(%s)' % text, b'1?(%s):2' % text, b'(%s)?(%s):(%s)' % (b'1', b'2', text), b'min(1,2,%s,3,4)' % text, b'min(%s,%s)' % (b'1', text), b'min(%s,1)' % text]
            texts += [b'(%s)===%s' % (text, b'1'), b'1<(%s)' % text, b'((((%s)))).y' % text, b'(' * 30 + text + b')' * 30, b'%s foo' % text, b'foo(%s)' % text]
    return texts + [random_tall(source, height) for height in (63, 64, 65) for _ in range(50)]


def padded(text, size):
    return [text + b' ' * (size - len(text)), b' ' * (size - len(text)) + text]


def limit_texts(source):
    """Sizes at the limits, and long texts of every kind."""
    texts = []
    for size in (1022, 1023, 1024, 1025, 1026, 1100, 1200):
        for text in (b'1', b'', b'1 +', b'foo(1)', b'1 #', b"color('red')", b'1 1', b'(1', unary_chain(64), b'1 ' + b'(' * 33):
            texts += padded(text, size)
        texts += [b"'" + b'x' * (size - 2) + b"'", b'a' * size, b'9' * size, b'(' * size, b'-' * size, unary_chain(size - 1), b'1' + b'+1' * ((size - 1) // 2), b'x' * (size - 2) + b'()', b'1.' + b'x' * (size - 2)]
        count = (size - 5) // 2
        texts += [padded(b'min(' + b','.join([b'1'] * count) + b')', size)[0], padded(b'1' + b'.x' * ((size - 1) // 2), size)[0], b"color('" + b'r' * (size - 9) + b"')", b'${' + b'a' * (size - 3) + b'}']
        texts += [b'1' + b' ' * (size - 3) + b'+1', b'1' + b' ' * (size - 2) + b'+', b'1' + b' ' * (size - 2) + b'2', b'1' + b' ' * (size - 2) + b')', b'1' + b' ' * (size - 4) + b'.xy', b'-' + b' ' * (size - 2) + b'1']
    for n in (100, 255, 300, 341, 500):
        texts += [b'1?1:' * n + b'1', b'1?' * n + b'1' + b':1' * n, b'1?1:' * n, b'1?' * n + b'1', b'1?' * n, b'1:' * n, b'- ' * n + b'1', unary_chain(n), b'1' + b'-1' * n, b'1' + b'.x' * n, b'1,' * n]
        texts += [b'abs(' * n, b'min(' + b'1,' * n, b'min(' + b'1,' * n + b')', b'1' + b'||1' * n, b'1' + b'[0]' * n, b'1' + b'+' * n, b'! ' * n, b'1 ' * n, b'true?' * n, b'min(' + b','.join([b'-1'] * n) + b')']
    texts += [b'min(' + b','.join([b'1+1'] * 255) + b')', b'min(' + b','.join([b'1?1:1'] * 169) + b')', b'min(' + b','.join([unary_chain(62)] * 15) + b')', b'min(' + b','.join([b'a' * 60 + b'()'] * 15) + b')']
    for _ in range(30):
        words = []
        while len(spaced(words)) < 900:
            words += ([b','] if words else []) + right_words(source, 40)
        texts += [b'min(' + joined(source, words, 0) + b')', b'vec4(' + joined(source, words[:200], 2) + b')']
    return texts


def space_texts(source):
    texts = [b' ' * n for n in (1, 2, 3, 4, 10)]
    for text in (b'1', b'1+2', b'1+', b'foo', b'min(', b'min(1', b'(', b'1?', b'1?2', b'1?2:', b'1.', b'1[', b'1[0', b'-', b'1 2', b')', b"color('rad')", b'1.q', b'#', b''):
        texts += [b' ' * lead + text + b' ' * trail for lead in (0, 1, 3) for trail in (0, 1, 4)]
    for words in ([b'1', b'+', b'2', b'*', b'3'], [b'min', b'(', b'1', b',', b'${a}', b'.', b'x', b')'], [b'1', b'?', b'-', b'2', b':', b"'s'", b'[', b'0', b']'], [b'color', b'(', b'(', b"'red'", b')', b')']):
        texts += [gap.join(words) for gap in (b'', b' ', b'  ', b'     ')] + [b' '.join(words[:i]) + b'   ' + b' '.join(words[i:]) for i in range(len(words) + 1)]
    return texts


# For each number what is refused by it and, but for 1 and 2, by no smaller one.
FAULTS = {
    2: [b'#', b'--', b"'", b'${}', b'1234567890123456', b'=='],
    3: [b'(' * 33],
    4: [b')', b'1 1', b'foo', b'1 +', b'?', b'min(1,)'],
    5: [unary_chain(64), b'(' + chain('left', 65) + b')'],
    6: [b'foo(1)', b'1.q', b'color(1)', b"color('rad')"],
}


def order_texts(source):
    """Refusals of several numbers in one text, in either order."""
    texts = []
    faults = [fault for number in FAULTS for fault in FAULTS[number]]
    texts += [b'%s + %s' % pair for pair in itertools.product(faults, faults)]
    for numbers in itertools.permutations(FAULTS, 3):
        texts.append(b' + '.join(chosen(source, FAULTS[number]) for number in numbers))
    texts += padded(b' + '.join(FAULTS[number][0] for number in FAULTS), 1025) + padded(b' + '.join(FAULTS[number][0] for number in FAULTS), 1024)
    texts += [padded(fault, 1025)[i] for fault in faults for i in (0, 1)] + [b'foo(' + b'1+' * 64 + b'1)', b'-' * 1 + b'!-' * 40 + b'foo(1)', b'(' * 33 + b'foo']
    return texts


SOUP = [sign for sign in PUNCTUATORS for _ in range(2)] + [b'(', b')', b'(', b')', b',', b'.', b'?', b':', b'-', b'+'] + LEAVES + [b'1', b'2', b'0', b'${a}', b'true', b'min', b'abs', b'color', b'x', b'y', b'foo', b'q', b'vec2']


def soup_texts(source):
    texts = [joined(source, [chosen(source, SOUP) for _ in range(1 + source.getrandbits(8) % 10)], gaps) for gaps in (0, 4) for _ in range(500)]
    texts += [joined(source, [chosen(source, SOUP) for _ in range(11 + source.getrandbits(8) % 50)], 1) for _ in range(100)]
    texts += [spaced([chosen(source, SAMPLES) for _ in range(4 + source.getrandbits(8) % 4)]) for _ in range(300)]
    return texts + likely_texts(source)


def likely_texts(source):
    """Rows in which, but for the last, each word can stand where it does."""
    texts = []
    for _ in range(500):
        classes, words = (), []
        for _ in range(3 + source.getrandbits(8) % 14):
            able = [i for i, name in enumerate(SAMPLE_CLASSES) if is_viable(classes + (name,))]
            i = chosen(source, able)
            classes, words = classes + (SAMPLE_CLASSES[i],), words + [SAMPLES[i]]
        texts += [spaced(words), spaced(words + [chosen(source, SAMPLES)])]
    return texts


def damaged(source, words):
    """One word deleted, put in, replaced, doubled or exchanged with the next."""
    at, word = source.getrandbits(16) % max(len(words), 1), chosen(source, SOUP)
    return chosen(source, [
        words[:at] + words[at + 1:], words[:at] + [word] + words[at:], words[:at] + [word] + words[at + 1:], words[:at] + words[at:at + 1] + words[at:],
        words[:at] + words[at:at + 2][::-1] + words[at + 2:],
    ])


def damage_texts(source):
    texts = [joined(source, damaged(source, right_words(source, 30)), 1) for _ in range(1500)]
    texts += [joined(source, damaged(source, damaged(source, right_words(source, 30))), 1) for _ in range(200)]
    whole = b"min(1, -${v}.x) ? color('red')[0] : (2 + 3 * 4 === !true) || abs(5)"
    texts += [whole[:i] for i in range(len(whole) + 1)] + [whole[i:] for i in range(len(whole))] + [whole[:i] + whole[i + 1:] for i in range(len(whole))]
    found = [whole[t.at:t.end] for t in tokens(whole)[:-1]]
    texts += [spaced(found[:i] + [word] + found[i:]) for i in range(len(found) + 1) for word in SAMPLES]
    return texts + [spaced(found[:i] + found[i + 1:]) for i in range(len(found))] + [spaced(found[:i] + found[i:i + 2][::-1] + found[i + 2:]) for i in range(len(found) - 1)]


def random_texts(source):
    """Right but for names, some with a name that is not known, a few with a byte that is not listed."""
    texts = [joined(source, right_words(source, most), gaps) for most in (12, 40, 120) for gaps in (0, 1, 6) for _ in range(80)]
    for _ in range(250):
        words = right_words(source, 40)
        texts.append(joined(source, [chosen(source, [b'foo', b'q', b'Min', b'xy']) if word in FUNCTIONS + MEMBERS and source.getrandbits(2) == 0 else word for word in words], 1))
    for _ in range(100):
        words = right_words(source, 30)
        at = source.getrandbits(16) % (len(words) + 1)
        texts.append(spaced(words[:at] + [chosen(source, BAD)] + words[at:]))
    return texts


FILES = {
    'examples': example_texts, 'short': short_texts, 'grouping': grouping_texts, 'unary': unary_texts, 'picks': pick_texts, 'conditionals': conditional_texts, 'calls': call_texts,
    'brackets': bracket_texts, 'names': name_texts, 'heights': height_texts, 'limits': limit_texts, 'spaces': space_texts, 'orders': order_texts, 'soup': soup_texts, 'damage': damage_texts,
    'random': random_texts,
}

# Up to how many tokens a text is held against the grammar, and its tree too.
MOST_CHECKED = 60
MOST_CUT = 16


def record(text, number, place, tree):
    return b'%03x %x %03x %04x\n' % (len(text), number, place, len(tree)) + text + b'\n' + tree + b'\n'


def check_grammars(answers):
    """All texts that come as far as the grammar and are not too long for it."""
    for text, (number, _, _) in answers.items():
        count = len(Reading(text).tokens) - 1
        if number not in (1, 2, 3) and count <= MOST_CHECKED:
            check_grammar(text, number == 0 and count <= MOST_CUT)


def main():
    sys.setrecursionlimit(20000)
    check_stated()
    check_all_short()
    source = random.Random(SEED)
    answers = {}
    files = {}
    for name, texts in FILES.items():
        new = {text: judged(text) for text in distinct(texts(source)) if text not in answers}
        answers.update(new)
        files[name] = [record(text, *answer) for text, answer in new.items()]
    check_grammars(answers)
    check_telling(answers)
    write('syntax_cases', files)


if __name__ == '__main__':
    main()
