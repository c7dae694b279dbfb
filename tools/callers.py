"""Finds, for each crate, a function of a crate above that calls it, for the crate's page: one that is proved, or else one of a test."""
import functools
import re

import sources
from definitions import CRATES

USE = re.compile(r'^use (px_\w+)::(?:\{([^}]*)\}|(\w+));', re.M)
START = re.compile(r'( *)(?:pub(?:\(\w+\))? )?fn \w+')


def imports(text):
    """What a file takes of each crate."""
    found = {}
    for crate, several, one in USE.findall(text):
        found.setdefault(crate, set()).update(re.findall(r'\w+', several or one))
    return found


def functions(text):
    """The functions of a file, each as its lines with the doc comment above."""
    lines = text.split('\n')
    for number, line in enumerate(lines):
        if not (match := START.match(line)):
            continue
        first = number
        while first and lines[first - 1].strip().startswith(('///', '#[', '//')) and not lines[first - 1].startswith('//!'):
            first -= 1
        last = next((at for at in range(number, len(lines)) if lines[at] == match[1] + '}'), None)
        if last is not None:
            yield [one[len(match[1]):] for one in lines[first:last + 1]]


@functools.lru_cache(maxsize=None)
def callers():
    """For each crate the functions of crates above that call it, with the file and the names that they call."""
    found = {}
    for _, crates in sources.parts():
        for above in crates:
            for file in sorted((CRATES / above / 'src').glob('**/*.rt')):
                text = file.read_text()
                taken = imports(text)
                for lines in functions(text) if taken else ():
                    for crate, names in taken.items():
                        if called := called_of(crate, names, lines):
                            found.setdefault(crate, []).append((file, lines, called))
    return found


def called_of(crate, names, lines):
    """The public calls and the types of a crate that stand in a function's body."""
    opened = next((at for at, line in enumerate(lines) if line == '{' or re.search(r'(^\)|fn ).*\{$', line)), 0)
    body = '\n'.join(lines[opened + 1:])
    public = {item.title for item in sources.public_items(crate)}
    calls = {f'{owner}::{name}' for owner, name in re.findall(r'\b(\w+)::(\w+)\(', body) if owner in names}
    calls |= {name for name in re.findall(r'(?<![.\w:])(\w+)\(', body) if name in names}
    return calls & public


def is_of_tests(file):
    """Whether the file holds tests, of which less is proved: they may stop at an assertion."""
    return file.name == 'tests.rt' or file.parent.parent.name.endswith('_tests')


def rank(one):
    """The best first: code before tests, with a contract, of at most thirty lines, with two calls or more, and short."""
    file, lines, called = one
    return is_of_tests(file), not any('ensures' in line for line in lines), len(lines) > 30, -min(len(called), 2), len(lines), file


def caller(crate):
    """The best caller of a crate, of at most forty lines, or None."""
    return min((one for one in callers().get(crate, ()) if 8 <= len(one[1]) <= 40), key=rank, default=None)


def page(crate):
    """What a crate's page says of its caller."""
    if not (best := caller(crate)):
        return []
    file, lines, called = best
    name = next(re.search(r'fn (\w+)', line)[1] for line in lines if START.match(line))
    calls = ', '.join(f'`{one}`' for one in sorted(called))
    said = f'A caller of {calls} in a test' if is_of_tests(file) else f'A caller of {calls} that is proved'
    return [f'{said}, [`{name}`](../{file.relative_to(CRATES.parent)}):', '', '```rust', *lines, '```', '']
