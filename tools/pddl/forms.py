"""Reads a PDDL file into nested forms, each with its place, and refuses what isn't taken."""
import re
import sys
from dataclasses import dataclass

NAME = re.compile(r'[a-z][a-z0-9_-]*\Z')
TOKEN = re.compile(r'(?P<blank>[ \t\r\n\f\v]+|;[^\n]*)|(?P<open>\()|(?P<close>\))|(?P<word>[^\s();]+)')
PAGE = 'docs/PDDL.md, "What isn\'t taken"'

AMOUNTS = 'numbers', 'write amounts as objects, with a predicate that says which comes next'
COSTS = 'costs', '--ignore-costs leaves them out'
NO_TIME = 'write plain actions: a script has no time'
EXTENDED = 'extended domains', 'write the domain in one file'
STATIC_AXIOM = 'let the actions add and delete what would follow'

# What PDDL has and this translator doesn't take: the word at which it is seen, what it is called, and what can be done.
SECTIONS = {':durative-action': ('durative actions', NO_TIME), ':derived': ('axioms of PDDL (:derived)', STATIC_AXIOM),
            ':axiom': ('axioms of PDDL (:axiom)', STATIC_AXIOM), ':constraints': ('constraints', 'leave them out, or plan without them'),
            ':process': ('processes', NO_TIME), ':event': ('events', NO_TIME), ':length': ('a wanted length', 'leave it out'),
            ':uses': EXTENDED, ':extends': EXTENDED}
HEADS = {'or': ('a disjunction', 'write an action, or a problem, for each part'),
         'imply': ('an implication', 'write an action for each of the two cases'),
         'forall': ('a universal condition', 'write the condition of each object'),
         'exists': ('an existential condition other than at the top of the goal', 'make its variables parameters, or move it to the top'),
         'when': ('a conditional effect', 'write an action for each of the two cases'),
         'preference': ('a preference', 'leave it out, or make it a part of the goal'),
         'oneof': ('a choice', 'write an action for each outcome'), 'at': ('a timed literal', NO_TIME),
         'over': ('a timed condition', NO_TIME), **dict.fromkeys(('<', '>', '<=', '>=', 'increase', 'decrease', 'assign', 'scale-up',
                                                                  'scale-down'), AMOUNTS)}
EFFECTS = {'forall': ('an effect for all', 'write an effect of each object, or an action for each'),
           '=': ('equality in an effect', 'it has its place in conditions')}
ALWAYS = {'and', 'not', 'or', 'imply', 'forall', 'exists', 'when', '='}


class Refused(Exception):
    """What stands at a place of a file isn't taken."""

    def __init__(self, place, message):
        super().__init__(f'{place.at()}: {message}')


def not_taken(place, what, advice, shown=None):
    """The refusal of what PDDL has and scripts don't, with what can be done and the page that says why."""
    return Refused(place, f'not taken: {what}{f" ({shown} ..)" if shown else ""}; {advice} ({PAGE})')


@dataclass(frozen=True)
class Place:
    file: str
    line: int
    column: int

    def at(self):
        return f'{self.file}:{self.line}:{self.column}'


@dataclass(frozen=True)
class Word:
    text: str
    place: Place


@dataclass
class Form:
    items: list
    place: Place

    def head(self):
        return self.items[0].text if self.items and isinstance(self.items[0], Word) else ''


def head_of(item):
    """The first word of a form; of a word, nothing."""
    return item.head() if isinstance(item, Form) else ''


def tokens(file, text):
    """The parentheses and words of a text, each with its place."""
    line, start, position = 1, 0, 0
    while position < len(text):
        found = TOKEN.match(text, position)
        place = Place(file, line, position - start + 1)
        if found.lastgroup != 'blank':
            stray = re.search('[\udc80-\udcff]', found.group())
            if stray:
                raise Refused(place, f'the byte {ord(stray[0]) - 0xdc00:02X} belongs to no character: save the file as UTF-8 text')
            if not found.group().isascii() or not found.group().isprintable():
                raise Refused(place, f'{found.group()!a} has a character that no PDDL name has')
            yield found.lastgroup, found.group().lower(), place
        line += found.group().count('\n')
        if '\n' in found.group():
            start = position + found.group().rindex('\n') + 1
        position = found.end()


def read_define(file, text):
    """The sections of the one form (define ..) that a file is."""
    whole, stack = None, []
    for kind, word, place in tokens(file, text):
        if kind == 'open':
            if whole:
                raise Refused(place, 'nothing may stand after the form (define ..)')
            stack.append(Form([], place))
        elif not stack:
            what = 'a parenthesis too many' if kind == 'close' else f'{word} stands outside (define ..)'
            raise Refused(place, what)
        elif kind == 'word':
            if word.startswith(':') and not stack[-1].items and len(stack) != 2:
                raise Refused(stack[-1].place, f'({word} stands inside another section: a parenthesis is missing before it')
            stack[-1].items.append(Word(word, place))
        else:
            form = stack.pop()
            if stack:
                stack[-1].items.append(form)
            else:
                whole = form
    if stack:
        raise Refused(stack[-1].place, 'this parenthesis is never closed')
    if not whole or whole.head() != 'define':
        raise Refused(whole.place if whole else Place(file, 1, 1), 'the file is no form (define ..)')
    return whole


def read_file(file):
    """The form that a file is. A mark of byte order at its head is no part of it."""
    try:
        with open(file, encoding='utf-8-sig', errors='surrogateescape', newline='') as opened:
            return read_define(file, opened.read())
    except OSError as error:
        sys.exit(f'from-pddl: {file}: {error.strerror}')


def name_of(item, what):
    """The text of a word that must be a name."""
    if not isinstance(item, Word) or not NAME.match(item.text):
        shown = item.text if isinstance(item, Word) else 'a form'
        raise Refused(item.place, f'{what} is wanted here, not {shown}')
    return item.text


def type_names(item):
    """The Words of a type: one, or those of (either ..)."""
    if isinstance(item, Word):
        name_of(item, 'a type')
        return (item,)
    if item.head() != 'either' or len(item.items) == 1:
        raise Refused(item.place, 'a type is a name, or (either NAME ..)')
    for word in item.items[1:]:
        name_of(word, 'a type')
    return tuple(item.items[1:])


def typed_list(items, what, prefix=''):
    """Pairs of a Word and the Words of its type, which are None where no type is given."""
    pairs, waiting, position = [], [], 0
    while position < len(items):
        item = items[position]
        if isinstance(item, Word) and item.text == '-':
            if not waiting or position + 1 == len(items):
                raise Refused(item.place, 'a type stands between names and the next name')
            kind = type_names(items[position + 1])
            pairs += [(word, kind) for word in waiting]
            waiting, position = [], position + 2
            continue
        if isinstance(item, Form) or not item.text.startswith(prefix):
            raise Refused(item.place, f'{what} is wanted here')
        if not NAME.match(item.text[len(prefix):]):
            raise Refused(item.place, f'{what} is wanted here, not {item.text}')
        waiting.append(item)
        position += 1
    return pairs + [(word, None) for word in waiting]


def title_of(whole, kind):
    """The Word that names a domain or a problem."""
    if len(whole.items) < 2 or head_of(whole.items[1]) != kind:
        raise Refused(whole.place, f'a file that begins (define ({kind} NAME) is wanted')
    title = whole.items[1]
    if len(title.items) != 2 or isinstance(title.items[1], Form):
        raise Refused(title.place, f'({kind} NAME) is wanted')
    return title.items[1]


def sections(whole, kind, known):
    """The sections of a define form by their first words; (:action may stand several times."""
    found = {'name': title_of(whole, kind), ':action': []}
    for section in whole.items[2:]:
        if isinstance(section, Word):
            raise Refused(section.place, f'{section.text} stands outside a section')
        head = section.head()
        if head == ':action' and ':action' in known:
            found[head].append(section)
        elif head in known and head not in found:
            found[head] = section
        elif head in SECTIONS:
            raise not_taken(section.place, *SECTIONS[head])
        else:
            twice = head in known and head != ':action'
            raise Refused(section.place, f'a second section ({head}' if twice else f'({head or ".."} is no section of a {kind}')
    # what a file requires is no cause to refuse it: what it uses is
    for requirement in found[':requirements'].items[1:] if ':requirements' in found else []:
        if not getattr(requirement, 'text', '').startswith(':'):
            raise Refused(requirement.place, f'a requirement is a word such as :strips, not {getattr(requirement, "text", "(..)")}')
    return found
