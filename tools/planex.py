"""Runs scripts with the program, and gives its replies as objects.

>>> answer = example('shakey')
>>> plan = answer.plan('P1')
>>> plan.moves, [str(step) for step in plan.steps]
(4, ['GOTHRU(D1,R1,R2)', 'PUSHTHRU(B1,D1,R2,R1)'])

`run` takes a script, as a text or as a path, and `read` a transcript that was kept. Both return an `Answer`, which lists the replies in the
order of the commands and finds them by name. Each reply is an object of its own kind: `Plan`, `Exhausted`, `NodeLimit`, `ShapeLimit`,
`Learned`, `NotLearned`, `Edited`, `NotEdited`, `Table`, `Noted`, `Run`, `Duo`, `Facts`, `Saved`, `NotSaved`, `Certified`, `NotCertified`,
`Pursuit`, `Tree` or `Unknown`, with its line and its first line's text. docs/LANGUAGE.md says when each comes.

In a notebook a `Table` shows itself as the picture of a triangle, and the `floors` of a plan or of a run in a building show the rooms.
The examples on this page run the program where it stands proved, and else read what is recorded of it (`example`).

What goes wrong is an exception of a class of its own, all of them below `PlanexError`: `Refused`, a script that isn't one; `NoProgram`,
there is no program to run; `Stopped`, the program didn't answer all; `Unread`, a text is no transcript, and `CutShort`, it ends too early.

It needs Python 3.8 or later and nothing else. Put the folder of this file on Python's path, as with `sys.path.insert(0, 'tools')`.
"""
import pathlib
import re
import subprocess
from dataclasses import dataclass, field
from typing import NamedTuple

TOP = pathlib.Path(__file__).resolve().parent.parent
PROGRAM = TOP / 'planex'
MOST_COMMANDS, MOST_BYTES = 512, 1048576  # of a script of version 1
NUMBER, NAME = r'(0|[1-9]\d{0,9})', r'([^\s(),]+)'


# What goes wrong.

class PlanexError(Exception):
    """What all exceptions of this module are."""


class Unread(PlanexError):
    """A text isn't what is read here: the line from which on it isn't, and why. The file is none where that is the one that is read.

    >>> read('noted 1\\nfly\\n')
    Traceback (most recent call last):
    ...
    planex.Unread: 2: this line begins no reply
    """

    def __init__(self, line, why):
        super().__init__(f'{line}: {why}')
        self.line, self.why, self.file = line, why, None


class CutShort(Unread):
    """A transcript ends where more has to come: the line that is missing.

    >>> read('plan N 2 steps 4 moves\\n  1 A(a)\\n')
    Traceback (most recent call last):
    ...
    planex.CutShort: 3: the transcript ends here; step 2 of 2 is wanted here
    """


class Refused(PlanexError):
    """A script isn't one: the line of its first fault, the code and the limit, and what the program says on standard error.

    >>> example('tutorial/6-refused')
    Traceback (most recent call last):
    ...
    planex.Refused: line 5 is refused with code 6

    docs/LANGUAGE.md explains the codes.
    """

    def __init__(self, line, code, limit, said=''):
        super().__init__(f'line {line} is refused with code {code}' + (f', limit {limit}' if limit else ''))
        self.line, self.code, self.limit, self.said = line, code, limit, said


class NoProgram(PlanexError):
    """There is no program at that path, or it can't run here.

    >>> run('facts', program='/no/such/program')
    Traceback (most recent call last):
    ...
    planex.NoProgram: /no/such/program: No such file or directory
    """


class Stopped(PlanexError):
    """The program didn't answer all: its exit status, what it says, and what it wrote before."""

    def __init__(self, status, said, wrote=b''):
        super().__init__(f'planex ends with status {status}')
        self.status, self.said, self.wrote = status, said, wrote


# What replies are made of.

class Atom(NamedTuple):
    """A predicate, or an operator, with its arguments.

    >>> atom = read_atom('INROOM(B1,R2)')
    >>> atom.predicate, atom.arguments, str(atom)
    ('INROOM', ('B1', 'R2'), 'INROOM(B1,R2)')
    """
    predicate: str
    arguments: tuple = ()

    def __str__(self):
        return f'{self.predicate}({",".join(self.arguments)})' if self.arguments else self.predicate

    def under(self, values):
        """The atom with values for some of its arguments.

        >>> str(read_atom('INROOM(p4,p6)').under({'p4': 'B1'}))
        'INROOM(B1,p6)'
        """
        return Atom(self.predicate, tuple(values.get(argument, argument) for argument in self.arguments))

    def is_pattern_of(self, atom):
        """Is the atom this one, whatever the wild card stands for?"""
        return (self.predicate == atom.predicate and len(self.arguments) == len(atom.arguments)
                and all(own in ('$', other) for own, other in zip(self.arguments, atom.arguments)))


def read_atom(text):
    """The atom that a text of the program is, or None. An argument may be a variable of a goal, as ?1."""
    found = re.fullmatch(r'([^\s(),]+)(?:\(([^\s()]+)\))?', text)
    arguments = tuple(found[2].split(',')) if found and found[2] else ()
    if found and found[1].isidentifier() and all(name.isidentifier() or re.fullmatch(r'\?[1-9]\d*', name) for name in arguments):
        return Atom(found[1], arguments)
    return None


class Mark(NamedTuple):
    """A fact that a row rests on, and the number of the step that adds it: 0 where it holds at the start."""
    column: int
    atom: Atom


class Row(NamedTuple):
    """A row of a table: the step, or the atoms of the goal, and the marks."""
    heads: list
    marks: list


class Turn(NamedTuple):
    """A turn of a run, which ends in `acted`, `slipped`, `goal` or `nokernel`. Without a kernel its number is 0, and without a step that is
    None."""
    text: str
    kernel: int
    step: Atom
    end: str


class Event(NamedTuple):
    """What one of two executors does, 1 or 2. Its end is `sensed` where it finds a kernel and remembers its step, `acted` or `slipped` where it
    takes that step or doesn't, `goal` or `nokernel`. Of the first three the kernel's number and the step are told."""
    text: str
    who: int
    end: str
    kernel: int = 0
    step: Atom = None


def in_order(parameters):
    """Parameters by number.

    >>> in_order(['p10', 'p2'])
    ['p2', 'p10']
    """
    return sorted(parameters, key=lambda name: int(name[1:]))


def words_of(text):
    """The tokens of a line: names, numbers, variables with their sign, and other signs.

    >>> words_of('f 0 0 P(?p1,a)')
    ['f', '0', '0', 'P', '(', '?p1', ',', 'a', ')']
    """
    return re.findall(r'[^\s(),~+=-]+|\S', text)


def read_atoms(words):
    """The atoms of tokens."""
    atoms, at = [], 0
    while at < len(words):
        name, arguments = words[at], ()
        at += 1
        if words[at:at + 1] == ['(']:
            end = words.index(')', at)
            arguments, at = tuple(words[at + 1:end:2]), end + 1
        atoms.append(Atom(name, arguments))
    return tuple(atoms)


def own_names(words):
    """The tokens of a table's block, with its variables as a table shows them: ?p1 as p1, a variable of the goal, ?g1, as ?1."""
    return [f'p{word[2:]}' if word.startswith('?p') else f'?{word[2:]}' if word.startswith('?g') else word for word in words]


def leaves_of(words):
    """The marks of a row by the tokens of its proofs: their facts, each once. An ancestor, `a I`, and the use of an axiom,
    `s C L M (TERMS)` before its M proofs, are passed over.

    >>> [(mark.column, str(mark.atom)) for mark in leaves_of(words_of('s 0 1 1 (D,A,B) f 1 0 P(D) f 0 0 Q'))]
    [(1, 'P(D)'), (0, 'Q')]
    """
    found, at = {}, 0
    while at < len(words):
        end = at + 2
        if words[at] == 'f':
            end = words.index(')', at) + 1 if words[at + 4:at + 5] == ['('] else at + 4
            atom, = read_atoms(words[at + 3:end])
            found[int(words[at + 1]), int(words[at + 2]), atom] = Mark(int(words[at + 1]), atom)
        elif words[at] == 's':
            end = words.index(')', at) + 1
        elif words[at] != 'a':
            raise ValueError(words[at])
        at = end
    return list(found.values())


def table_of(line, name, count, steps, goal, proofs):
    """The table that a block is: its steps and its goal as atoms, and the tokens of its proofs, row by row."""
    rows = [Row([step], leaves_of(proof)) for step, proof in zip(steps, proofs)] + [Row(list(goal), leaves_of(proofs[-1]))]
    return Table(line, f'table {name} {count} parameters {len(steps)} steps', name, rows, count)


# How a transcript is read: line by line, each reply in the form that docs/LANGUAGE.md gives it, and in no other.

class Lines:
    """The lines of a transcript, with the place that is read next."""

    def __init__(self, text):
        self.lines, self.at = text.split('\n'), 0
        if self.lines[-1] == '':
            self.lines.pop()

    def rest(self):
        """Is there a next line?"""
        return self.at < len(self.lines)

    def fail(self, why):
        """Refuses the transcript at the next line."""
        raise Unread(self.at + 1, why) if self.rest() else CutShort(self.at + 1, f'the transcript ends here; {why}')

    def take(self, form):
        """The groups of the next line where it has the form, and is passed then; else None."""
        found = re.fullmatch(form, self.lines[self.at]) if self.rest() else None
        self.at += 1 if found else 0
        return found

    def wanted(self, form, what):
        """The groups of the next line, which has to have the form."""
        found = self.take(form)
        if not found:
            self.fail(f'{what} is wanted here')
        return found

    def atom(self, text):
        """The atom that the line just taken has."""
        found = read_atom(text)
        if not found:
            self.at -= 1
            self.fail(f'{text} is no atom')
        return found


@dataclass
class Reply:
    """What one command is answered with: the line where it begins and that line's text, and the name of a result where it has one."""
    line: int
    text: str
    name: str = ''

    word, form = '', ''  # of each kind: the word by which it is known, and the form of its first line, which no other kind has
    kinds = []

    def __init_subclass__(cls):
        super().__init_subclass__()
        cls.kinds.append(cls)

    def __str__(self):
        return self.text

    def take(self, numbers, lines):
        """Takes the numbers of the first line, and the lines that follow it."""


class Reasoned:
    """A reply whose last word says why a table isn't given."""

    @property
    def why(self):
        return self.text.split()[2]


@dataclass
class Plan(Reply):
    """A plan: the steps, which are instances of operators, and how many moves of the search led to it."""
    word, form = 'plan', f'plan {NAME} {NUMBER} steps {NUMBER} moves'
    steps: list = field(default_factory=list)
    moves: int = 0

    def take(self, numbers, lines):
        count, self.moves = numbers
        for number in range(1, count + 1):
            self.steps.append(lines.atom(lines.wanted(f'  {number} (\\S+)', f'step {number} of {count}')[1]))


@dataclass
class Exhausted(Reply):
    """No list of moves reaches the goal."""
    word, form = 'exhausted', f'exhausted {NAME}'


@dataclass
class NodeLimit(Reply):
    """None of so many nodes is solved, and one more is reached by so many moves."""
    word, form = 'nodelimit', f'nodelimit {NAME} {NUMBER} nodes {NUMBER} moves'
    nodes: int = 0
    moves: int = 0

    def take(self, numbers, lines):
        self.nodes, self.moves = numbers


@dataclass
class ShapeLimit(Reply):
    """A question of the search met the limit of shapes."""
    word, form = 'shapelimit', f'shapelimit {NAME} {NUMBER} shapes'
    shapes: int = 0

    def take(self, numbers, lines):
        self.shapes, = numbers


@dataclass
class Learned(Reply):
    """A plan was learned: the numbers of the parameters and the steps of its general table."""
    word, form = 'learned', f'learned {NAME} {NUMBER} parameters {NUMBER} steps'
    parameters: int = 0
    steps: int = 0

    def take(self, numbers, lines):
        self.parameters, self.steps = numbers


@dataclass
class NotLearned(Reasoned, Reply):
    """A plan wasn't learned, and why."""
    word, form = 'notlearned', f'notlearned {NAME} (?:toolong|toodeep|toowide|full)'


@dataclass
class Edited(Reply):
    """Of a table the steps that some adds rest on were made a table: the numbers of its parameters and steps.

    >>> edited = read('edited E 3 parameters 1 steps\\n')[0]
    >>> edited.name, edited.parameters, edited.steps
    ('E', 3, 1)
    """
    word, form = 'edited', f'edited {NAME} {NUMBER} parameters {NUMBER} steps'
    parameters: int = 0
    steps: int = 0

    def take(self, numbers, lines):
        self.parameters, self.steps = numbers


@dataclass
class NotEdited(Reasoned, Reply):
    """A table wasn't edited, and why."""
    word, form = 'notedited', f'notedited {NAME} (?:prefix|want|toolong|toodeep|full)'


@dataclass
class Table(Reply):
    """A triangle table: a row for each step, and one for the goal.

    >>> table = example('learn').table('M1')
    >>> [str(step) for step in table.steps], table.parameters()
    (['GOTHRU(p2,p1,p3)', 'PUSHTHRU(p4,p5,p3,p6)'], ['p1', 'p2', 'p3', 'p4', 'p5', 'p6'])
    >>> [(mark.column, str(mark.atom)) for mark in table.rows[1].marks]
    [(0, 'INROOM(p4,p3)'), (1, 'INROOM(ROBOT,p3)'), (0, 'CONNECTS(p5,p6,p3)')]
    >>> [str(atom) for atom in table.kernel(3)]
    ['BOX(p4)', 'INROOM(p4,p6)']
    >>> table._repr_svg_()[:4]
    '<svg'
    """
    word, form = 'table', f'table {NAME} {NUMBER} parameters {NUMBER} steps'
    rows: list = field(default_factory=list)
    count: int = 0  # of parameters
    objects: tuple = ()  # of the script, if it is known: a parameter with such a name isn't told apart

    def take(self, numbers, lines):
        self.count, steps = numbers
        for number in range(1, steps + 2):
            found = lines.wanted(rf'row {number} goal((?: \S+)+)' if number > steps else rf'row {number} (\S+)',
                                 f'row {number} of a table of {steps} steps')
            self.rows.append(Row([lines.atom(text) for text in found[1].split()], self.marks_of(number, lines)))

    @staticmethod
    def marks_of(number, lines):
        """The marks that stand below the row of that number."""
        marks = []
        while found := lines.take(rf'  {NUMBER} (\S+)'):
            if int(found[1]) >= number:
                lines.at -= 1
                lines.fail(f'row {number} can\'t rest on step {found[1]}')
            marks.append(Mark(int(found[1]), lines.atom(found[2])))
        return marks

    @property
    def steps(self):
        """The steps, which stand at the heads of all rows but the last."""
        return [row.heads[0] for row in self.rows[:-1]]

    @property
    def goal(self):
        """The atoms of the goal."""
        return self.rows[-1].heads

    def parameters(self):
        """The parameters, by number."""
        atoms = [atom for row in self.rows for atom in [*row.heads, *(mark.atom for mark in row.marks)]]
        names = {name for atom in atoms for name in atom.arguments if re.fullmatch(r'p[1-9]\d{0,9}', name)}
        return in_order(name for name in names if int(name[1:]) <= self.count)

    def kernel(self, number):
        """The atoms of a kernel, each once: the marks of the rows from its number on that come from before."""
        return list(dict.fromkeys(mark.atom for row in self.rows[number - 1:] for mark in row.marks if mark.column < number))

    def _repr_svg_(self):
        from pictures import triangle
        return triangle.picture(self, self.objects, True)


@dataclass
class Saved(Reply):
    """A table as the block that a script may begin with, which is the table again.

    >>> saved = read('table M 1\\nstep A(?p1)\\ngoal G(?p1,?g1)\\nproof f 0 0 P(?p1)\\nproof f 1 0 G(?p1,b)\\nend\\n')[0]
    >>> saved.name, saved.lines[0], str(saved.table.goal[0]), saved.table.rows[1].marks[0].column
    ('M', 'table M 1', 'G(p1,?1)', 1)
    """
    word, form = 'saved', f'table {NAME} {NUMBER}'
    lines: list = field(default_factory=list)
    table: Table = None

    def take(self, numbers, lines):
        count, = numbers
        begun, steps, proofs = lines.at - 1, [], []
        while found := lines.take(r'step (\S+)'):
            steps.append(lines.atom(''.join(own_names(words_of(found[1])))))
        atoms = lines.wanted(r'goal((?: \S+)+)', 'the goal of a table')[1].split()
        goal = [lines.atom(''.join(own_names(words_of(text)))) for text in atoms]
        for row in range(1, len(steps) + 2):
            found = lines.wanted(r'proof((?: \S+)*)', f'row {row} of a table of {len(steps)} steps')
            proofs.append(own_names(words_of(found[1])))
        lines.wanted('end', 'the end of a table')
        self.lines = lines.lines[begun:lines.at]
        try:
            self.table = table_of(self.line, self.name, count, steps, goal, proofs)
        except (IndexError, ValueError) as error:
            raise Unread(lines.at - 1, 'these are no proofs of a table') from error


@dataclass
class NotSaved(Reasoned, Reply):
    """A table can't be a block, and why."""
    word, form = 'notsaved', f'notsaved {NAME} (?:toolong|toodeep|toomany)'


@dataclass
class Certified(Reply):
    """A certificate of a table, which `planex check` tests: its lines, and the numbers of parameters and steps."""
    word, form = 'certified', 'planex certificate 1'
    lines: list = field(default_factory=list)
    parameters: int = 0
    steps: int = 0

    def take(self, numbers, lines):
        begun = lines.at - 1

        def several(*names, count=1):
            for _ in range(count):
                for name in names:
                    found = lines.wanted(rf'{name}((?: \S+)*)', f'a line {name} of a certificate')[1].split()
            return int(found[0]) if count == 1 and found and found[0].isdigit() else 0
        several('objects')
        several('predicates')
        several('axiom', count=several('axioms'))
        several('operator', 'pre', 'delete', 'add', count=several('operators'))
        self.parameters = several('table')
        several('goal')
        self.steps = several('steps')
        several('step', count=self.steps)
        several('row', count=self.steps + 1)
        self.lines = lines.lines[begun:lines.at]


@dataclass
class NotCertified(Reasoned, Reply):
    """A table has no certificate, and why."""
    word, form = 'notcertified', f'notcertified {NAME} (?:toolong|toodeep|toomany)'


@dataclass
class Noted(Reply):
    """A disturbance was recorded: how many are, now."""
    word, form = 'noted', f'noted {NUMBER}'
    count: int = 0

    def take(self, numbers, lines):
        self.count, = numbers


def read_turn(lines, number):
    """The turn of that number, which stands next."""
    found = lines.wanted(rf'  turn {number} (?:(nokernel)|kernel ([1-9]\d{{0,9}}) (?:(goal)|(\S+) (acted|slipped)))',
                         f'turn {number} of a run')
    text = lines.lines[lines.at - 1].strip()
    return Turn(text, int(found[2] or 0), lines.atom(found[4]) if found[4] else None, found[1] or found[3] or found[5])


@dataclass
class Run(Reply):
    """A run of a table by the executor: its turns, of which only the last is an end.

    >>> run = example('recovers').run('P1')
    >>> [(turn.kernel, turn.end) for turn in run.turns], run.reached
    ([(1, 'acted'), (1, 'acted'), (2, 'acted'), (3, 'goal')], True)
    """
    word, form = 'run', f'run {NAME}'
    turns: list = field(default_factory=list)

    def take(self, numbers, lines):
        while not self.turns or self.turns[-1].end in ('acted', 'slipped'):
            self.turns.append(read_turn(lines, len(self.turns) + 1))

    @property
    def reached(self):
        """Did the run end at its goal?"""
        return self.turns[-1].end == 'goal'


@dataclass
class Duo(Reply):
    """A run of two executors in one world: the event of one of them on each line. Executor 1 runs the table `name`, and 2 the table `other`.

    >>> duo = read('duo P Q\\n  1 kernel 1 A(a)\\n  2 kernel 2 B(b)\\n  1 acted\\n  2 slipped\\n')[0]
    >>> duo.name, duo.other, [(event.who, event.end, str(event.step)) for event in duo.events[2:]]
    ('P', 'Q', [(1, 'acted', 'A(a)'), (2, 'slipped', 'B(b)')])
    """
    word, form = 'duo', f'duo {NAME} {NAME}'
    other: str = ''
    events: list = field(default_factory=list)

    def take(self, numbers, lines):
        remembered = {}
        while not self.events or lines.rest() and lines.lines[lines.at].startswith('  '):
            found = lines.wanted(r'  ([12]) (?:kernel ([1-9]\d{0,9}) (\S+)|(acted|slipped|goal|nokernel))', 'an event of one of two')
            who, end = int(found[1]), found[4] or 'sensed'
            if (end in ('acted', 'slipped')) != (who in remembered):
                lines.at -= 1
                lines.fail(f'executor {who} remembers {"a" if who in remembered else "no"} step here')
            if end == 'sensed':
                remembered[who] = int(found[2]), lines.atom(found[3])
            kernel, step = remembered.get(who, (0, None)) if end == 'sensed' else remembered.pop(who, (0, None))
            self.events.append(Event(lines.lines[lines.at - 1].strip(), who, end, kernel, step))


@dataclass
class Pursuit(Reply):
    """A pursuit: runs of plans, one after the other, with a search before each. Where no kernel is found the next search begins. The end is
    the reply by which the last search found no plan, or none where the goal is reached.

    >>> pursuit = read('pursue P 2 searches\\n  turn 1 nokernel\\n  exhausted\\n')[0]
    >>> pursuit.searches, len(pursuit.turns), pursuit.reached, str(pursuit.end)
    (2, 1, False, 'exhausted P')
    """
    word, form = 'pursue', f'pursue {NAME} {NUMBER} searches'
    searches: int = 0
    turns: list = field(default_factory=list)
    end: Reply = None

    def take(self, numbers, lines):
        self.searches, = numbers
        while not self.end and (not self.turns or self.turns[-1].end != 'goal'):
            found = lines.take(r'  (exhausted|nodelimit|shapelimit)((?: \S+)*)')
            if found:
                said = Lines(f'{found[1]} {self.name}{found[2]}')
                self.end = read_reply(said)
                self.end.line = lines.at
            else:
                self.turns.append(read_turn(lines, len(self.turns) + 1))
        begun = 1 + sum(turn.end == 'nokernel' for turn in self.turns)
        if self.searches != begun:
            raise Unread(self.line, f'{begun} searches are begun here')

    def runs(self):
        """The turns of each plan that was found, with the number of the first.

        >>> [(first, len(turns)) for first, turns in read('pursue P 2 searches\\n  turn 1 nokernel\\n  turn 2 kernel 1 goal\\n')[0].runs()]
        [(1, 1), (2, 1)]
        """
        ends = [number for number, turn in enumerate(self.turns, 1) if turn.end in ('goal', 'nokernel')]
        return [(before + 1, self.turns[before:end]) for before, end in zip([0, *ends], ends)]

    @property
    def reached(self):
        """Did the pursuit end at its goal?"""
        return self.end is None


class Node(NamedTuple):
    """A node of a search: the one that it goes on from, its last move, `push` or `apply`, with the entry, and how many atoms it needs."""
    before: int
    move: str
    entry: str
    needs: int


@dataclass
class Tree(Reply):
    """A search as the tree of its nodes, in the order in which they are found, and its end: `solved`, which is the last node, `exhausted`,
    `more` and the number of moves to one more node, or `shapelimit` and the number of shapes.

    >>> tree = read('tree T 3 nodes\\n  0 needs 2\\n  1 from 0 push A(a) needs 1\\n  2 from 1 apply A(a) needs 0\\n  solved\\n')[0]
    >>> tree.depths(), tree.path(), tree.stack(1), tree.end
    ([0, 1, 2], [0, 1, 2], ['A(a)'], 'solved')
    """
    word, form = 'tree', f'tree {NAME} {NUMBER} nodes'
    nodes: list = field(default_factory=list)
    end: str = ''

    def take(self, numbers, lines):
        count, = numbers
        for number in range(count):
            told = f'  {number} needs {NUMBER}' if number == 0 else f'  {number} from {NUMBER} (push|apply) (.+) needs {NUMBER}'
            found = lines.wanted(told, f'node {number} of {count}')
            if number == 0:
                self.nodes.append(Node(0, '', '', int(found[1])))
                continue
            node = Node(int(found[1]), found[2], found[3], int(found[4]))
            stack = self.stack(node.before) if node.before < number else None
            if stack is None or node.move == 'apply' and stack[-1:] != [node.entry]:
                lines.at -= 1
                lines.fail('no node here leads to this one')
            self.nodes.append(node)
        self.end = lines.wanted(f'  (solved|exhausted|more {NUMBER} moves|shapelimit {NUMBER} shapes)', 'the end of a tree')[1]

    def lead(self, number):
        """The nodes from the first one to this one."""
        found = [number]
        while found[0]:
            found.insert(0, self.nodes[found[0]].before)
        return found

    def path(self):
        """The nodes that lead to the solved one, or none."""
        return self.lead(len(self.nodes) - 1) if self.end == 'solved' else []

    def depths(self):
        """By how many moves each node is reached."""
        found = []
        for number, node in enumerate(self.nodes):
            found.append(found[node.before] + 1 if number else 0)
        return found

    def stack(self, number):
        """The entries on the stack of a node, the top last."""
        found = []
        for node in (self.nodes[each] for each in self.lead(number)[1:]):
            found = [*found, node.entry] if node.move == 'push' else found[:-1]
        return found


@dataclass
class Facts(Reply):
    """The facts, in their order."""
    word, form = 'facts', f'facts {NUMBER}'
    atoms: list = field(default_factory=list)

    def take(self, numbers, lines):
        count, = numbers
        for number in range(1, count + 1):
            self.atoms.append(lines.atom(lines.wanted(r'  (\S+)', f'fact {number} of {count}')[1]))


@dataclass
class Unknown(Reply):
    """A name without a plan or a table, or a parameter that isn't in the table."""
    word, form = 'unknown', f'unknown {NAME}'


@dataclass
class Refusal(Reply):
    """The line by which a script is refused. `run` raises `Refused` for it."""
    word, form = 'refused', f'refused line {NUMBER} code {NUMBER} limit {NUMBER}'
    numbers: list = field(default_factory=list)

    def take(self, numbers, lines):
        self.numbers = numbers


def read_reply(lines):
    """The reply that stands next."""
    text = lines.lines[lines.at]
    kind = next((kind for kind in Reply.kinds if re.fullmatch(kind.form, text)), None)
    if not kind:
        lines.fail('this line begins no reply')
    found = lines.take(kind.form)
    count = kind.form.count(NAME)
    names, numbers = found.groups()[:count], found.groups()[count:]
    for name in names:
        if not name.isidentifier():
            lines.at -= 1
            lines.fail(f'{name} is no name')
    reply = kind(lines.at, text, *names)
    reply.take([int(number) for number in numbers], lines)
    return reply


def text_of(data):
    """Bytes as text."""
    try:
        return data.decode()
    except UnicodeDecodeError as error:
        raise Unread(data[:error.start].count(b'\n') + 1, 'this is no text: a byte belongs to no character') from error


def replies_of(text):
    """The replies of a transcript, in order. It has one at least."""
    lines, replies = Lines(text), []
    while lines.rest():
        replies.append(read_reply(lines))
    if not replies:
        raise CutShort(1, 'there is no reply in it')
    return replies


# What a script is answered with.

class Floors(list):
    """The floor of a building, step by step or turn by turn: pictures, each with its title."""

    def __init__(self, pictures, whole):
        super().__init__(pictures)
        self.whole = whole

    def _repr_svg_(self):
        return self.whole


class Floor(NamedTuple):
    """A picture of the floor, and what is said of it."""
    title: str
    picture: str

    def _repr_svg_(self):
        return self.picture


class Answer(list):
    """The replies to a script, one for each command. Where the script is known, `script` is its text."""

    def __init__(self, replies, script=None):
        super().__init__(replies)
        self.script = script

    def __str__(self):
        return '\n'.join(map(str, self))

    def of(self, kind, name):
        """The first reply of a kind with a name."""
        for reply in self:
            if isinstance(reply, kind) and reply.name == name:
                return reply
        raise KeyError(f'{kind.__name__} {name}')

    def plan(self, name):
        """The plan of that name."""
        return self.of(Plan, name)

    def table(self, name):
        """The table of that name, as `show` gives it."""
        return self.of(Table, name)

    def run(self, name):
        """The first run of that name."""
        return self.of(Run, name)

    def facts(self):
        """The atoms of the last reply that lists the facts."""
        return [reply for reply in self if isinstance(reply, Facts)][-1].atoms

    def story(self, title='script'):
        """The replies beside their script, with the facts at each step and turn, which are worked out from the script."""
        from pictures.script import read_script
        from pictures.story import with_script
        return with_script(title, read_script(self.script), list(self))

    def floors(self, name):
        """The floors of a plan, at the start and after each step, or where there is none of a run, at the end of each turn.

        >>> floors = example('tutorial/11-building').floors('enter')
        >>> [floor.title for floor in floors]
        ['at the start', 'after step 1, GOTOD(D,HALL,KITCHEN)', 'after step 2, OPEN(D)', 'after step 3, GOTHRU(D,HALL,KITCHEN)']
        >>> floors._repr_svg_()[:4], floors[0]._repr_svg_()[:4]
        ('<svg', '<svg')
        """
        from pictures import floor
        story = self.story()
        layout = floor.layout_of(story)
        if layout is None:
            raise KeyError('the script has no building')
        for item in story.told:
            if item.reply.name == name and (item.states or item.turns):
                states = [floor.State(story.script.building, facts) for facts in item.states or [turn.left for turn in item.turns]]
                titles = floor.captions(item.reply.steps) if item.states else [turn.text for turn in item.reply.turns]
                alone = [Floor(title, floor.strip(layout, [state], [title], name)) for state, title in zip(states, titles)]
                return Floors(alone, floor.strip(layout, states, titles, name))
        raise KeyError(name)


def read(transcript, script=None):
    """The answer that a transcript is, with the text of its script where that is known.

    >>> read('noted 1\\nfacts 1\\n  P(a)\\n')[1].atoms
    [Atom(predicate='P', arguments=('a',))]
    """
    replies = replies_of(transcript)
    if isinstance(replies[0], Refusal):
        raise Refused(*replies[0].numbers)
    tables = [reply for reply in replies if isinstance(reply, Table)]
    if tables and script is not None:
        from pictures.script import read_script
        objects = tuple(read_script(script).objects)
        for table in tables:
            table.objects = objects
    return Answer(replies, script)


def transcript_of(data, program=PROGRAM):
    """What the program writes for the bytes of a script, and what it says on standard error."""
    try:
        ran = subprocess.run([program, 'run'], input=data, stdout=subprocess.PIPE, stderr=subprocess.PIPE, check=False)
    except OSError as error:
        raise NoProgram(f'{program}: {error.strerror}') from error
    said = ran.stderr.decode(errors='replace')
    if ran.returncode == 1:
        raise NoProgram(f'{program}: {said.strip() or "it ends with status 1"}')
    if ran.returncode == 3:
        raise Refused(*replies_of(text_of(ran.stdout))[0].numbers, said)
    if ran.returncode:
        raise Stopped(ran.returncode, said, ran.stdout)
    return text_of(ran.stdout), said


def run(script, program=PROGRAM):
    """The answer to a script, which is a text, or the path of a file. A script without commands has an answer without replies."""
    data = script.read_bytes() if isinstance(script, pathlib.Path) else script.encode()
    transcript, _ = transcript_of(data, program)
    return read(transcript, text_of(data)) if transcript else Answer([], text_of(data))


def example(name):
    """The answer to a script of examples/: by the program where it stands proved, and else as it is recorded.

    >>> len(example('danger'))
    3
    """
    script = TOP / 'examples' / f'{name}.planex'
    if subprocess.run([TOP / 'tools' / 'is-proved'], check=False).returncode == 0:
        return run(script)
    return read(script.with_suffix('.out').read_text(), script.read_text())
