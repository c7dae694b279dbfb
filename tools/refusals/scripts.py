"""Scripts as far as a refusal needs them: the tokens of a line, its atoms, and what earlier lines have declared."""
import re
import unicodedata

from refusals.words import ATOMS, BLOCKS, BUILDING_PREDICATES, COMMAND, WORDS

SIGNS = '(),~$+=-'
DIGITS, ASCII_NAME = re.compile('[0-9]*'), re.compile('[A-Za-z_][A-Za-z0-9_]*')


def name_end(text, start, begun=False):
    """Where the name ends that begins at a place of a text, or before it; the place if none does. By Unicode's classes, which Python's
    identifiers have."""
    match = ASCII_NAME.match(text, start)
    end = match.end() if match else start
    while end < len(text) and (('_' if begun or end > start else '') + text[end]).isidentifier():
        end += 1
    return end


def token(text, start):
    """The kind and the end of the token at a place of a text. If there is none, the kind is None, and the end that of what stands there."""
    number = DIGITS.match(text, start).end()
    if number > start:
        end = name_end(text, number, begun=True)
        return ('number' if end == number else None), end
    variable = text[start] == '?'
    end = name_end(text, start + variable)
    if end > start + variable:
        return ('variable' if variable else 'name'), end
    return ('sign' if text[start] in SIGNS else None), start + 1


def code_point(char):
    """A character by its number, as U+00A0, and its name where it has one."""
    name = unicodedata.name(char, '')
    return f'U+{ord(char):04X}' + (f' ({name})' if name else '')


def visible(text):
    """A text without characters that a terminal would obey or nobody would see: these are written <U+00A0>."""
    return ''.join(char if char.isprintable() else f'<U+{ord(char):04X}>' for char in text)


def shown(line):
    """A line as it may be shown: cut, and visible."""
    text = visible(line.replace('\t', ' ').rstrip('\r'))
    return text if len(text) <= 100 else text[:97] + '...'


class Line:
    """A line of a script: its text without comment, its tokens as pairs of a kind and a text, and the text that is no token."""

    def __init__(self, text):
        self.text, self.tokens, self.bad = text.split('#')[0].strip(' \t\r'), [], None
        position = 0
        while position < len(self.text) and self.bad is None:
            kind, end = token(self.text, position)
            if kind:
                self.tokens.append((kind, self.text[position:end]))
            else:
                self.bad = self.text[position:end]
            while end < len(self.text) and self.text[end] in ' \t\r':
                end += 1
            position = end
        self.word = self.tokens[0][1] if self.tokens else ''
        self.names = [text for kind, text in self.tokens[1:] if kind == 'name']
        self.variables = [text for kind, text in self.tokens if kind == 'variable']

    def atoms(self):
        """The atoms of the line, as pairs of a predicate and its arguments, which are tokens."""
        listed, depth = [], 0
        for kind, text in self.tokens[ATOMS.get(self.word, 1):]:
            if text in ('(', ')'):
                depth += 1 if text == '(' else -1
            elif depth and text != ',':
                listed[-1][1].append((kind, text))
            elif kind == 'name':
                listed.append((text, []))
        return listed


class Declared:
    """What the lines before a refused one have declared, each name with its line."""

    def __init__(self):
        self.objects, self.predicates, self.operators, self.results, self.plans, self.things = {}, {}, {}, {}, {}, {}
        self.sorts, self.sorted, self.untabled = {}, {}, {}
        self.arities, self.once = {}, {}
        self.block, self.operator, self.parameters, self.command = None, None, [], None

    @property
    def has_building(self):
        return 'building' in self.once

    def take(self, number, text):
        line = Line(text)
        if line.tokens:
            self.declare(number, line.word, line.names, line.tokens)
            self.once.setdefault(line.word, number)

    def declare(self, number, word, names, tokens):
        if word == 'object':
            self.objects.update({name: number for name in names})
        elif word == 'sort':
            self.sorts[names[0]] = number
            self.objects.update({name: number for name in names[1:]})
        elif word == 'param':
            self.sorted.update({name: number for name in names[1:]})
        elif word == 'predicate':
            self.predicates[names[0]], self.arities[names[0]] = number, int(tokens[2][1])
        elif word in BLOCKS:
            self.block = word, number
        elif word == 'end':
            self.block, self.operator, self.parameters, self.sorted = None, None, [], {}
        elif word in ('room', 'door', 'box'):
            self.objects[names[0]] = number
            self.things[names[0]] = word
        elif word in ('plan', 'learn', 'edit'):
            self.results[names[0]] = number
            if word == 'plan':
                self.plans[names[0]] = number
        elif word in ('pursue', 'tree'):
            self.untabled[names[0]] = 'tree' if word == 'tree' else 'pursuit', number
        if word == 'table':
            self.results[names[0]] = number
        if word == 'operator':
            self.operator, self.parameters = names[0], names[1:]
            self.operators[names[0]] = number
        elif word == 'building':
            self.objects['ROBOT'] = number
            self.predicates.update({name: number for name in BUILDING_PREDICATES})
            self.arities.update(BUILDING_PREDICATES)
        if word in WORDS and COMMAND in WORDS[word].places:
            self.command = self.command or number
