"""Reads a script that the program takes: its facts, operators or building, and its commands.

The program alone decides what a script is. What is read here is one that it took, so that forms aren't looked at closely.
"""
from dataclasses import dataclass, field
from typing import NamedTuple

from pictures.changes import Change
from planex import Atom, Unread, own_names, read_atoms, table_of

COMMANDS = ('plan', 'learn', 'edit', 'show', 'disturb', 'run', 'duo', 'facts', 'save', 'certify', 'pursue', 'tree')
# What a building gives to its script: as the table of operators in docs/LANGUAGE.md.
BUILDING_PREDICATES = ('INROOM', 'NEXTTO', 'CONNECTS', 'OPENED', 'CLOSED', 'ROOM', 'DOOR', 'BOX')
BUILDING_OPERATORS = """
operator GOTOB(b,r)
pre BOX(b) INROOM(b,r) INROOM(ROBOT,r)
delete NEXTTO(ROBOT,$)
add NEXTTO(ROBOT,b)
operator GOTOD(d,r,s)
pre INROOM(ROBOT,r) CONNECTS(d,r,s)
delete NEXTTO(ROBOT,$)
add NEXTTO(ROBOT,d)
operator OPEN(d)
pre DOOR(d) NEXTTO(ROBOT,d) CLOSED(d)
delete CLOSED(d)
add OPENED(d)
operator CLOSE(d)
pre DOOR(d) NEXTTO(ROBOT,d) OPENED(d)
delete OPENED(d)
add CLOSED(d)
operator GOTHRU(d,r,s)
pre CONNECTS(d,r,s) INROOM(ROBOT,r) OPENED(d)
delete INROOM(ROBOT,$) NEXTTO(ROBOT,$)
add INROOM(ROBOT,s)
operator PUSHD(b,d,r,s)
pre BOX(b) INROOM(b,r) INROOM(ROBOT,r) NEXTTO(ROBOT,b) CONNECTS(d,r,s)
delete NEXTTO(ROBOT,$) NEXTTO(b,$)
add NEXTTO(ROBOT,b) NEXTTO(b,d)
operator PUSHTHRU(b,d,r,s)
pre BOX(b) INROOM(b,r) INROOM(ROBOT,r) CONNECTS(d,r,s) OPENED(d) NEXTTO(ROBOT,b) NEXTTO(b,d)
delete INROOM(ROBOT,$) INROOM(b,$) NEXTTO(ROBOT,$) NEXTTO(b,$)
add INROOM(ROBOT,s) INROOM(b,s) NEXTTO(ROBOT,b)
"""


class Command(NamedTuple):
    """A command, with its line's number and text. A disturbance has a turn, a point, and what it changes; a run of two executors has the
    second name, and whose event each is."""
    line: int
    text: str
    word: str
    name: str
    turn: int = 0
    point: str = ''
    changes: tuple = ()
    other: str = ''
    events: tuple = ()


@dataclass
class Building:
    rooms: list = field(default_factory=list)
    doors: dict = field(default_factory=dict)  # by name: the two rooms
    boxes: list = field(default_factory=list)


@dataclass
class Block:
    """A table's block: its line, name and number of parameters, its steps and goal, and the tokens of the proofs of each row."""
    line: int
    name: str
    parameters: int
    steps: list = field(default_factory=list)
    goal: tuple = ()
    proofs: list = field(default_factory=list)


@dataclass
class Script:
    version: int = 1
    objects: list = field(default_factory=list)
    predicates: list = field(default_factory=list)
    operators: dict = field(default_factory=dict)  # by name: the parameters and the change
    preconditions: dict = field(default_factory=dict)  # by the name of an operator
    facts: list = field(default_factory=list)
    building: Building = None
    tables: dict = field(default_factory=dict)  # by name: those that the script begins with
    block: Block = None  # the one that is open
    commands: list = field(default_factory=list)

    def declared(self, atoms, others=()):
        """The atoms, whose names have to be declared, but for some others."""
        for atom in atoms:
            known(atom.predicate, self.predicates)
            for name in atom.arguments:
                known(name, (*others, *self.objects))
        return atoms

    def has_step(self, step):
        """Is the step an instance of an operator, over objects?"""
        return (step.predicate in self.operators and len(self.operators[step.predicate][0]) == len(step.arguments)
                and all(name in self.objects for name in step.arguments))

    def change_of(self, step):
        """What a step, which is an operator's instance, changes."""
        parameters, change = self.operators[step.predicate]
        return change.under(dict(zip(parameters, step.arguments)))

    def needed_by(self, step):
        """The precondition of a step."""
        return [atom.under(dict(zip(self.operators[step.predicate][0], step.arguments))) for atom in self.preconditions[step.predicate]]

    def in_order(self, facts):
        """Facts in the order in which the program lists them."""
        return sorted(facts, key=lambda fact: (self.predicates.index(fact.predicate), [*map(self.objects.index, fact.arguments)]))


def tokens(line):
    """The tokens of a line without its comment. A name runs on as long as one may; other characters are tokens by themselves."""
    text, found, at = line.split('#')[0], [], 0
    while at < len(text):
        end = at + 1
        if text[at] == '?' or ('a' + text[at]).isidentifier():
            while end < len(text) and ('a' + text[end]).isidentifier():
                end += 1
        if text[at] not in ' \t\r':
            found.append(text[at:end])
        at = end
    return found


def known(name, names):
    """The name, which has to be one of these."""
    if name not in names:
        raise ValueError(name)
    return name


def edits_of_atoms(words, script):
    """What + and - before atoms change."""
    starts = [at for at, word in enumerate(words) if word in '+-'] + [len(words)]
    for start, end in zip(starts, starts[1:]):
        atoms = script.declared(read_atoms(words[start + 1:end]))
        yield Change((), atoms) if words[start] == '+' else Change(atoms, ())


def edits_of_building(words, building):
    """What the edits of a building change."""
    while words:
        thing, name, *words = words
        if thing == 'robot':
            room = known(name, building.rooms)
            yield Change((Atom('INROOM', ('ROBOT', '$')), Atom('NEXTTO', ('ROBOT', '$'))), (Atom('INROOM', ('ROBOT', room)),))
            continue
        state, *words = words
        if known(thing, ('box', 'door')) == 'box':
            yield Change((Atom('INROOM', (known(name, building.boxes), '$')), Atom('NEXTTO', (name, '$')), Atom('NEXTTO', ('ROBOT', name))),
                         (Atom('INROOM', (name, known(state, building.rooms))),))
        else:
            gone, come = ('CLOSED', 'OPENED') if known(state, ('open', 'closed')) == 'open' else ('OPENED', 'CLOSED')
            yield Change((Atom(gone, (known(name, building.doors),)),), (Atom(come, (name,)),))


def read_command(number, text, words, script):
    """A command of a line."""
    if words[0] == 'duo':
        return Command(number, text, 'duo', words[1], other=words[2], events=tuple(map(int, words[3:])))
    if words[0] != 'disturb':
        return Command(number, text, words[0], words[1] if len(words) > 1 else '')
    changes = tuple(edits_of_building(words[3:], script.building) if script.building else edits_of_atoms(words[3:], script))
    return Command(number, text, 'disturb', '', int(words[1]), known(words[2], ('before', 'between')), changes)


def read_thing(words, script):
    """Takes a line of a building's block."""
    word, name, *rest = words
    if word == 'robot':
        script.facts.append(Atom('INROOM', ('ROBOT', known(name, script.building.rooms))))
        return
    script.objects.append(name)
    script.facts.append(Atom(word.upper(), (name,)))
    if word == 'room':
        script.building.rooms.append(name)
    elif word == 'box':
        script.building.boxes.append(name)
        script.facts.append(Atom('INROOM', (name, known(rest[0], script.building.rooms))))
    else:
        one, other = (known(room, script.building.rooms) for room in rest[:2])
        script.building.doors[name] = (one, other)
        script.facts += [Atom('CONNECTS', (name, one, other)), Atom('CONNECTS', (name, other, one)),
                         Atom('OPENED' if known(rest[2], ('open', 'closed')) == 'open' else 'CLOSED', (name,))]


def read_block(words, script):
    """Takes a line of a table's block."""
    block, (word, *rest) = script.block, own_names(words)
    if word == 'step':
        block.steps += read_atoms(rest)
    elif word == 'goal':
        block.goal = read_atoms(rest)
    elif word == 'proof':
        block.proofs.append(rest)
    elif known(word, ('end',)):
        if len(block.proofs) != len(block.steps) + 1:
            raise ValueError(word)
        script.tables[block.name] = table_of(block.line, block.name, block.parameters, block.steps, block.goal, block.proofs)
        script.block = None


def read_line(number, text, words, script):
    """Takes one line that has tokens."""
    word, rest = words[0], words[1:]
    if script.block:
        read_block(words, script)
    elif word == 'table':
        script.block = Block(number, rest[0], int(rest[1]))
    elif word == 'script':
        script.version = int(rest[0])
    elif word in COMMANDS:
        script.commands.append(read_command(number, text, words, script))
    elif word == 'object':
        script.objects += rest
    elif word == 'sort':
        script.objects += rest[1:]
    elif word == 'predicate':
        script.predicates.append(rest[0])
    elif word == 'operator':
        script.operators[rest[0]], script.preconditions[rest[0]] = (tuple(rest[2::2]), Change((), ())), ()
    elif word == 'pre':
        name, (parameters, _) = list(script.operators.items())[-1]
        script.preconditions[name] += script.declared(read_atoms(rest), parameters)
    elif word in ('delete', 'add'):
        name, (parameters, change) = list(script.operators.items())[-1]
        atoms = script.declared(read_atoms(rest), (*parameters, *('$' if word == 'delete' else '')))
        script.operators[name] = (parameters, change._replace(**{word: getattr(change, word) + atoms}))
    elif word == 'fact':
        script.facts += script.declared(read_atoms(rest))
    elif word == 'building':
        script.building, script.objects, script.predicates = Building(), ['ROBOT'], list(BUILDING_PREDICATES)
        for line in BUILDING_OPERATORS.split('\n')[1:-1]:
            read_line(number, line, tokens(line), script)
    elif word in ('room', 'door', 'box', 'robot'):
        read_thing(words, script)
    elif word not in ('axiom', 'param', 'end', 'height', 'nodes', 'shapes', 'weight'):
        raise ValueError(word)


def read_script(text):
    """The script of a text."""
    script = Script()
    for number, line in enumerate(text.split('\n'), 1):
        words = tokens(line.lstrip('\ufeff') if number == 1 else line)
        try:
            if words:
                read_line(number, line.split('#')[0].strip(' \t\r\ufeff'), words, script)
        except (AttributeError, IndexError, ValueError) as error:
            raise Unread(number, 'this line is none of a script') from error
    if script.building and not any(fact.arguments[0] == 'ROBOT' for fact in script.facts):
        raise Unread(number, 'the building is without a robot')
    return script
