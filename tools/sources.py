"""Reads the crates' sources for tools/documents: their pages, their public calls, and what they stand on."""
import functools
import itertools
import re

import definitions
from definitions import CRATES

CRATES_TXT = CRATES.parent / 'crates.txt'
ITEM = re.compile(r'(?P<indent> *)(?P<pub>pub )?(?:const )?(?P<kind>fn|struct|enum|trait|const|type) (?P<name>\w+)')
# a link to an item, by its name or by a path
LINK = re.compile(r'\[`([\w:]+)(?:\(\))?`\](?:\((?:crate::)?[\w:]+\))?(?!\()')
IMPL = re.compile(r'impl(?:<[^{]*?>)? (?:(?P<trait>[\w:]+)(?:<.*?>)? for )?(?P<type>\w+)')


@functools.lru_cache(maxsize=None)
def listed():
    """The parts of crates.txt, each with its crates and what these stand on."""
    found = []
    for line in CRATES_TXT.read_text().splitlines()[1:]:
        if line.startswith('# '):
            found.append((line[2:], {}))
        else:
            name, _, others = line.partition(':')
            found[-1][1][name] = [other for other in others.split() if (CRATES / other).exists()]
    return found


def parts():
    """Each part with its crates, the lowest first."""
    return [(heading, list(crates)) for heading, crates in listed()]


@functools.lru_cache(maxsize=None)
def below(crate):
    """All crates on which a crate stands, directly or not."""
    direct = next(crates[crate] for _, crates in listed() if crate in crates)
    return frozenset(direct).union(*map(below, direct))


def stands_on(crate):
    """The crates on which a crate stands, without those on which one of these stands."""
    return sorted(other for other in below(crate) if not any(other in below(one) for one in below(crate)))


def root(crate):
    """The root file of a crate."""
    source = CRATES / crate / 'src'
    return source / 'lib.rt' if (source / 'lib.rt').exists() else source / 'main.rt'


def page_lines(crate):
    """The page at the head of a crate."""
    lines = root(crate).read_text().split('\n')
    return [line[4:] for line in lines if line.startswith('//!')]


def first_sentence(crate):
    """The first sentence of a crate's page, without its last dot."""
    paragraph = ' '.join(page_lines(crate)).split('  ')[0].strip()
    return re.split(r'(?<=[\w)`])\. |\.$|: they stand apart', paragraph)[0]


def row(crate):
    """The row of a crate in the list of docs/ARCHITECTURE.md."""
    told = first_sentence(crate)
    return f'| [`{crate}`](CRATES.md#{crate}) | {told} | {", ".join(f"`{name}`" for name in stands_on(crate)) or "std"} |'


class Item:
    """A function, or a type, with what stands over it."""

    def __init__(self, file, owner, match, doc, lines):
        self.file, self.owner, self.name, self.kind = file, owner, match['name'], match['kind']
        self.head = head_of(lines) if self.kind == 'fn' else ''
        self.doc = doc + fields_of(lines) if doc and doc[-1].endswith(':') else doc

    @property
    def clauses(self):
        return re.findall(r'^\s*ensures (\w+) \{', self.head, re.M)

    @property
    def title(self):
        return f'{self.owner}::{self.name}' if self.owner else self.name


@functools.lru_cache(maxsize=None)
def items(crate):
    """The items of a crate in the order of its files, but for its tests."""
    found = []
    for file in sorted((CRATES / crate / 'src').glob('**/*.rt')):
        found += items_of(file)
    return found


def items_of(file):
    """The items of a file that may be public: those with `pub`, and the calls of traits that have clauses."""
    owner, doc, lines, found = None, [], file.read_text().split('\n'), []
    for number, line in enumerate(lines):
        if line.startswith('impl') and (impl := IMPL.match(line)):
            owner = impl['type'], impl['trait']
        elif line == '}':
            owner = None
        if line.strip().startswith('///'):
            doc.append(line.strip()[4:])
            continue
        if (match := ITEM.match(line)) and (owner or not match['indent']):
            item = Item(file, owner[0] if match['indent'] else None, match, doc, lines[number:])
            if match['pub'] or owner and owner[1] and 'ensures' in item.head:
                found.append(item)
            if match['kind'] == 'trait':
                owner = match['name'], match['name']
        if not line.strip().startswith(('#[', '//')):
            doc = []
    return found


def fields_of(lines):
    """What is said of the fields of a type."""
    found = []
    for line in itertools.takewhile(lambda line: line != '}', lines[1:]):
        if field := re.match(r' +pub (\w+):', line):
            found[-1:] = [f'- `{field[1]}`: {found[-1]}'] if found else []
        elif line.strip().startswith('///'):
            continued = found and not found[-1].startswith('- ')
            found[-1:] = [f'{found[-1]} {line.strip()[4:]}'] if continued else [*found[-1:], line.strip()[4:]]
    return found


def head_of(lines):
    """A function's head with its clauses: up to the line that opens its body or, in a trait, ends it."""
    for number, line in enumerate(lines):
        opens_at_once = line.endswith('{') and (number == 0 or line.lstrip().startswith(')'))
        if opens_at_once or line.strip() in ('{', '{}') or line.endswith(('};', ' {}')) or number and line.endswith(';'):
            return '\n'.join(lines[:number + 1])
    return '\n'.join(lines)


@functools.lru_cache(maxsize=None)
def public_names(crate):
    """The names that a crate hands out, in the order of its root file."""
    found = []
    for several, one in re.findall(r'^pub (?:use [\w:]+?::(\{[^}]*\}|\w+);|fn (\w+))', root(crate).read_text(), re.M):
        found += re.findall(r'\w+', several or one)
    return found


def public_items(crate):
    """What a caller may name: the items that the root file hands out, and the calls of the types among them."""
    names = public_names(crate)
    place = {name: number for number, name in enumerate(names)}
    own = [item for item in items(crate) if (item.owner or item.name) in place]
    return sorted(own, key=lambda item: place[item.owner or item.name])


@functools.lru_cache(maxsize=None)
def places(crate):
    """The file of each public name of a crate."""
    return {item.title: item.file for item in reversed(public_items(crate))}


def linked(crate, text):
    """A text with the links to items that rustdoc would make."""
    def replaced(match):
        name = match.group(1)
        other, _, rest = name.partition('::')
        file = places(other).get(rest) if other.startswith('px_') else places(crate).get(name) or places(crate).get(other)
        return f'[`{name}`](../{file.relative_to(CRATES.parent)})' if file else f'`{name}`'
    return re.sub(LINK, replaced, text)


def page(crate):
    """The page of a crate up to the sections on how it works, without headings and links: the list of its calls has these."""
    text, *later = re.split(r'^# (?!Calling it)', '\n'.join(page_lines(crate)), flags=re.M)
    text = re.sub(r'\n\n+', '\n\n', text.replace('# Calling it\n', '')).strip()
    more = f' (There is more on its page in [`{root(crate).name}`](../{root(crate).relative_to(CRATES.parent)}).)' if later else ''
    return (re.sub(LINK, r'`\1`', text) + more).split('\n') + ['']


def calls(crate):
    """The list of a crate's public items."""
    told = [item for item in public_items(crate) if item.kind == 'fn' or item.doc and item.kind in ('trait', 'struct', 'enum')]
    return [f'Calls and types of `{crate}`:', '', *(line for item in told for line in call(crate, item)), ''] if told else []


def call(crate, item):
    """An item, with its clauses and the spec files that these cite, and its doc comment."""
    clauses = ', '.join(f'`{name}`' for name in item.clauses)
    files = {file for file, _ in definitions.cited(item.file, item.head) if file.suffix == '.antt'}
    own_first = sorted(files, key=lambda file: (definitions.crate_of(file) != crate, file))
    cited = ', '.join(f'[{file.stem}](../{file.relative_to(CRATES.parent)})' for file in own_first)
    told = '; '.join(one for one in (clauses, cited) if one)
    text = linked(crate, '\n'.join(item.doc)).replace('# Errors\n', 'Errors: ')
    text = re.sub(r'\n\n+', '\n', f'[`{item.title}`](../{item.file.relative_to(CRATES.parent)}){f" ({told})" if told else ""}: {text}')
    return [f'{"- " if number == 0 else "  "}{line}' for number, line in enumerate(text.split('\n'))]
