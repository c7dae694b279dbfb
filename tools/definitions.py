"""Follows the definitions of specs/ from contracts, for tools/spec-files and tools/documents.

Goes, name by name, to the definitions that a contract cites and to those that they cite. The definitions of the toolchain's std are left
out, and so are types, whose fields stand in src/.
"""
import functools
import itertools
import pathlib
import re

CRATES = pathlib.Path(__file__).resolve().parent.parent / 'crates'
# the laws that docs/THEOREM.md names beside the contract of `planex_main`, and that contract
STARTS = [('px_session/src/laws.rt', 'replies_exist'), ('px_session/src/laws.rt', 'transcripts_exist'),
          ('px_run/src/laws.rt', 'texts_are_one'), ('px_session/src/laws.rt', 'lawful_is_one'), ('px_planex/src/laws.rt', 'runs_are_one'),
          ('px_ends/src/laws.rt', 'value_ends_are_one'), ('px_ends/src/laws.rt', 'nodes_stand_once'),
          ('px_totality/src/laws.rt', 'weight_none_is_exactly_breadth'), ('px_session/src/laws.rt', 'told_trees'),
          ('px_saved/src/lib.rt', 'saved_is_read_back'), ('px_run/src/laws.rt', 'rooms_suffice'),
          ('px_demo_script/src/laws.rt', 'demo_is_script'), ('px_run/src/top.rt', 'planex_main')]
# what a certificate is, and when it is right
CERTIFICATES = [('px_cert/src/reading.rt', 'read_cert'), ('px_cert/src/cert.rt', 'verify')]
# what `planex check` writes, by the definitions that say so, and that its one word is taken
CHECKED = [('px_run/specs/Outcomes.antt', 'CheckRight'), ('px_run/specs/Laws.antt', 'CertifiesWhereDone'), ('px_words/specs/Orders.antt', 'lone_order')]
# what a plan is worth, by the definition that says so
WORTH = CRATES / 'px_terms' / 'specs' / 'Plans.antt', 'Carries'
IMPORTS = re.compile(r'^(?:ghost |pub )?use Rattle\.(px_\w+\.specs(?:\.\w+)+)(?:\.\{([^}]*)\})?(?: as (\w+))?', re.M)
KIND = '(?:abbrev |record |data |instance |class |unfoldable )?'
DEFINES = re.compile(rf'{KIND}(?:pub )?{KIND}([^\s:(]+)')
WORD = re.compile(r"[^\W\d][\w'-]*")


@functools.lru_cache(maxsize=None)
def read(file):
    """The text of a file."""
    return file.read_text()


@functools.lru_cache(maxsize=None)
def imports(text):
    """The names that a file imports from spec files of the repository, each with its file and the name there."""
    found = {}
    for module, listed, alias in IMPORTS.findall(text):
        crate, _, path = module.partition('.specs.')
        file = CRATES / crate / 'specs' / (path.replace('.', '/') + '.antt')
        if not path.startswith(('declared.', 'contracts.')) and file.exists():
            for item in re.split(r',\s*', listed) if listed else ():
                name, _, called = item.strip().partition(' as ')
                if (place := origin(file, name)) is not None:
                    found[called or name] = place
            if alias:
                found[alias] = file, None
    return found


@functools.lru_cache(maxsize=None)
def origin(file, name):
    """The spec file of the repository in which a name is defined that a file may only hand on, and the name there."""
    handed_on = '\n'.join(line for line in read(file).split('\n') if line.startswith('pub use '))
    if name in WORD.findall(handed_on) or '◌' in name and name in handed_on:
        return imports(handed_on).get(name)
    return file, name


@functools.lru_cache(maxsize=None)
def blocks(text):
    """The text of each definition of a spec file: its declaration and its equations, and the heads of the modules it stands in."""
    found, name, heads = {}, None, []
    for line in text.split('\n'):
        code = line.split(' --')[0]
        depth = len(line) - len(line.lstrip())
        if line.startswith(('use ', 'pub use ', 'pub mod', '#')) or line.lstrip().startswith('--') or not line.strip():
            continue
        heads = heads[:depth // 2]
        if line.lstrip().startswith('module _'):
            heads, name = heads[:depth // 2] + [code], None
        elif line.strip() in ('mutual', 'abbrev mutual'):
            heads, name = heads[:depth // 2] + ['where '], None
        elif name is None and heads and not heads[-1].rstrip().endswith('where'):
            heads[-1] += code
        else:
            if depth == 2 * len(heads):
                name = DEFINES.match(line.lstrip()).group(1)
                found.setdefault(name, ''.join(heads))
            found[name] += code + '\n'
    return found


def uses(text, name):
    """Does a definition cite a name, which may be an operator with ◌ for its sides?"""
    if '◌' in name:
        return all(part in text for part in name.split('◌') if part)
    return name in WORD.findall(text)


def cited(file, text):
    """The files and names that a part of a file cites."""
    whole = read(file)
    for name, (other, there) in imports(whole).items():
        if uses(text, name):
            if there is None:
                for member in re.findall(rf"\b{name}\.([\w'-]+)", text):
                    yield other, member
            else:
                yield other, there
    if file.suffix == '.antt':
        for name in blocks(whole):
            if uses(text, name):
                yield file, name


def contract(path, function):
    """A function's head, with its clauses."""
    return re.search(rf'pub fn {function}\b.*?\n\{{', read(CRATES / path), re.S).group()


def of_theorem():
    """Each file with the names that are reached in it from the theorem, in an order in which what is cited comes first."""
    return followed([(CRATES / path, None, contract(path, function)) for path, function in STARTS])


def of_certificates():
    """The same from what a certificate is, and when it is right."""
    return followed([(CRATES / path, None, contract(path, function)) for path, function in CERTIFICATES])


def of_checked():
    """The same from what `planex check` writes, beside what certificates are."""
    there = {file for file, _ in of_certificates()}
    starts = [(CRATES / path, name, blocks(read(CRATES / path))[name]) for path, name in CHECKED]
    found = {file: names for file, names in followed(starts) if file not in there}
    for file, name, _ in starts:
        found.setdefault(file, []).append(name)
    return sorted(found.items())


def of_worth():
    """The same from what a plan is worth."""
    file, name = WORTH
    return followed([(file, name, blocks(read(file))[name])])


def followed(waiting):
    """The files that are reached from parts of files, each with the names that are reached in it."""
    files, seen, edges = {}, set(), {}
    starts = [file for file, _, _ in waiting]
    while waiting:
        file, _, text = waiting.pop()
        for other, name in cited(file, text):
            edges.setdefault(file, set()).add(other)
            if (other, name) in seen:
                continue
            seen.add((other, name))
            files.setdefault(other, []).append(name)
            if name in (defined := blocks(read(other))):
                waiting.append((other, name, defined[name]))
    return in_order(starts, edges, files)


def in_order(starts, edges, files):
    """The files by depth first from the starts, each after those that it cites, lower crates first among equals."""
    ordered, done = [], set()

    def visit(file):
        if file in done:
            return
        done.add(file)
        for other in sorted(edges.get(file, ())):
            visit(other)
        if file in files:
            ordered.append((file, files[file]))

    for file in starts:
        visit(file)
    return ordered


def crate_of(file):
    """The name of a file's crate."""
    return file.relative_to(CRATES).parts[0]


def length(file):
    """How many lines a file has."""
    return read(file).count('\n')


def defining(file):
    """How many lines a file has beside imports and empty ones."""
    return sum(bool(line) and not line.startswith(('use ', 'pub use ')) for line in read(file).split('\n'))


def defining_these(file, names):
    """How many lines these definitions of a file have, but for comments."""
    return sum(blocks(read(file))[name].count('\n') for name in set(names))


def table(files):
    """The rows of files with their lines, those of one crate that follow one another in a row."""
    for crate, some in itertools.groupby((file for file, _ in files), crate_of):
        yield f'| `{crate}` | {", ".join(f"{file.stem} {length(file)}" for file in some)} |'


def sums(files):
    """How many files and lines these are."""
    return f'{len(files)} files, {sum(length(file) for file, _ in files):,} lines'


def subject_lines(file):
    """The comment at the head of a file, line by line."""
    return list(itertools.takewhile(lambda line: line.startswith('--'), read(file).split('\n')))


def without_alike(lines):
    """The lines of a comment but for those that say why two places look alike."""
    text = '\n'.join(lines)
    return ' '.join(re.sub(r'^Alike: .*?(?:\.$|\Z)\n?', '', text, flags=re.M | re.S).split('\n')).strip()


def subject(file):
    """The comment at the head of a file."""
    return without_alike([line[3:] for line in subject_lines(file)])


def comments(file):
    """The public definitions of a file that have a comment, each with it, and the names of those that have none."""
    told, untold, comment, defined = [], [], [], set(blocks(read(file)))
    for line in read(file).split('\n')[len(subject_lines(file)):]:
        bare = line.strip()
        public = re.match(rf'{KIND}pub ', bare) and DEFINES.match(bare).group(1)
        if bare.startswith('--'):
            comment = [] if bare.startswith('-- ----') else comment + [bare[3:]]
        elif public in defined:
            defined.remove(public)
            if comment:
                told.append((public, without_alike(comment)))
            else:
                untold.append(public)
        if not bare.startswith(('--', 'mutual', 'abbrev mutual', 'module ')):
            comment = []
    return told, untold


def by_foundations(crate):
    """The spec files of a crate, each after those of it that it imports from."""
    files = sorted(file for file in (CRATES / crate / 'specs').glob('**/*.antt') if file.name != 'Lib.antt')
    edges = {file: {other for other, _ in imports(read(file)).values()} for file in files}
    return [file for file, _ in in_order(files, edges, dict.fromkeys(files))]
