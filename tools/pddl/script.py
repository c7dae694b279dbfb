"""Writes the script of what was read: names, facts and lists, with the limits that they pass."""
import re

from .reader import OBJECT
from .strips import EQUAL, FALSE, UNEQUAL

# The limits of the script language: number, what is counted, greatest.
LIMITS = {1: ('bytes of a name', 64), 2: ('objects', 256), 3: ('predicates', 64), 4: ('arguments of a predicate', 6),
          7: ('variables of a goal', 12), 8: ('operators', 32), 9: ('parameters of an operator', 8), 10: ('atoms of a list', 16),
          11: ('different facts', 512), 12: ('atoms of a goal', 16), 16: ('nodes', 50000), 17: ('sorts', 32)}
LATER = {2: 1024, 11: 1024}  # from version 2 on
MOST_NODES = {1: 50000, 2: 50000, 3: 1000000}
MOST_WEIGHT = 1000


def tell_apart(wanted, taken=()):
    """A name of scripts for each key: hyphens become underscores, and a number tells two apart that would meet."""
    taken, given = set(taken), {}
    for plain in (True, False):
        for key, name in wanted.items():
            if ('-' in name) == plain or key in given:
                continue
            spelled, number = name.replace('-', '_'), 1
            while spelled in taken:
                number += 1
                spelled = f'{name.replace("-", "_")}_{number}'
            taken.add(spelled)
            given[key] = spelled
    return {key: given[key] for key in wanted}


def same(names):
    return {name: name for name in names}


def spell(predicate, terms):
    return f'{predicate}({",".join(terms)})' if terms else predicate


def wrapped(word, parts):
    """Lines that begin with the word, each with as many of the parts as 100 columns hold."""
    line = word
    for part in parts:
        if len(line) + 1 + len(part) > 100 and line != word:
            yield line
            line = word
        line += ' ' + part
    if line != word:
        yield line


class Script:
    """The lines of a script. Version 1 needs no line that says so."""

    def __init__(self, strips, version, settings, notes):
        self.strips, self.reader, self.version, self.settings, self.notes = strips, strips.reader, version, settings, notes
        self.objects = tell_apart(same(self.reader.objects))
        self.operators = tell_apart({(one.action.name.text, one.case): one.action.name.text + (f'-{one.case}' if one.case > 1 else '')
                                     for one in strips.operators})
        self.sorts = tell_apart({kind: '-or-'.join(kind) for kind in strips.sorts})
        self.predicates, self.arities = self.all_predicates()

    def all_predicates(self):
        """How each predicate is spelled, and how many arguments it has."""
        strips, declared = self.strips, self.reader.predicates
        arities = {name: len(kinds) for name, (_, kinds) in declared.items()}
        names = tell_apart(same(declared))
        used = {atom.predicate for operator in strips.operators for atom in operator.pre} | {atom.predicate for atom in strips.goal}
        later = [{kind: '-or-'.join(kind) for kind in strips.types}, {(FALSE, name): 'not-' + name for name in strips.negated},
                 {key: name for key, name in ((UNEQUAL, 'different'), (EQUAL, 'same')) if key in used}]
        for wanted, arity in zip(later, (lambda key: 1, lambda key: arities[key[1]], lambda key: 2)):
            names.update(tell_apart(wanted, names.values()))
            arities.update({key: arity(key) for key in wanted})
        return names, arities

    def atom(self, atom, variables):
        return spell(self.predicates[atom.predicate], [variables.get(text) or self.objects[text] for text in atom.arguments])

    def facts(self):
        return [spell(self.predicates[key], [self.objects[name] for name in names]) for key, names in self.strips.facts]

    def operator(self, operator):
        """The head of an operator's block, with the parameters by their sorts and the atoms of its lists."""
        action = operator.action
        names = tell_apart(same(word.text[1:] for word, _ in action.parameters), self.objects.values())
        variables = {word.text: names[word.text[1:]] for word, _ in action.parameters}
        lists = {word: [self.atom(atom, variables) for atom in atoms]
                 for word, atoms in (('pre', operator.pre), ('delete', operator.deletes), ('add', operator.adds))}
        sorted_names = {}
        for word, kind in action.parameters:
            if kind in self.sorts:
                sorted_names.setdefault(self.sorts[kind], []).append(variables[word.text])
        head = spell('operator ' + self.operators[action.name.text, operator.case], list(variables.values()))
        return head, sorted_names, lists

    def goal(self):
        names = tell_apart(same(word.text[1:] for word, _ in self.reader.variables))
        variables = {word.text: '?' + names[word.text[1:]] for word, _ in self.reader.variables}
        return [self.atom(atom, variables) for atom in self.strips.goal]

    def declared_objects(self):
        """The lines of objects: first those without a sort."""
        own = {name: kind if kind in self.sorts else OBJECT for name, (_, kind) in self.reader.objects.items()}
        yield from wrapped('object', [self.objects[name] for name, kind in own.items() if kind == OBJECT])
        for kind, sort in self.sorts.items():
            yield from wrapped(f'sort {sort}', [self.objects[name] for name in own if own[name] == kind])

    def head(self):
        reader = self.reader
        yield f'# PDDL domain {reader.domain["name"].text}, problem {reader.problem["name"].text}'
        for note in self.notes:
            yield f'# from-pddl {note}'
        for name, spelled in self.objects.items():
            if name != spelled:
                yield f'# pddl object {spelled} is {name}'
        for (name, _), spelled in self.operators.items():
            if name != spelled:
                yield f'# pddl operator {spelled} is {name}'

    def lines(self):
        yield from self.head()
        if self.version > 1:
            yield f'script {self.version}'
        yield from self.declared_objects()
        for key, spelled in self.predicates.items():
            yield f'predicate {spelled} {self.arities[key]}'
        for operator in self.strips.operators:
            head, sorted_names, lists = self.operator(operator)
            yield head
            for sort, names in sorted_names.items():
                yield from wrapped(f'param {sort}', names)
            for word, atoms in lists.items():
                yield from wrapped(word, atoms)
            yield 'end'
        yield from wrapped('fact', self.facts())
        yield from (f'{word} {number}' for word, number in self.settings.items())
        yield 'plan solution ' + ' '.join(self.goal())


class Limits:
    """Each limit that a script passes, as a message with its number and both values."""

    def __init__(self, script):
        self.script, self.reader, self.passed = script, script.reader, []
        self.names()
        self.numbers()
        for operator in script.strips.operators:
            self.operator(operator)
        self.facts_and_goal()

    def greatest(self, number):
        return LATER.get(number, LIMITS[number][1]) if self.script.version > 1 else LIMITS[number][1]

    def count(self, number, place, value, what=''):
        greatest = self.greatest(number)
        if value > greatest:
            advice = f', and from version 2 on {LATER[number]}' if number in LATER and self.script.version == 1 else ''
            self.passed.append(f'{place.at()}: limit {number}, {LIMITS[number][0]}{what}: {value}, and at most {greatest}{advice}')

    def names(self):
        """Names that the files declare are long where they stand, and those of types and complements where types and predicates do."""
        script, reader = self.script, self.reader
        places = {name: word.place for name, (word, _) in reader.predicates.items()}
        elsewhere = reader.domain.get(':types', reader.domain['name']).place
        for name, spelled in script.objects.items():
            self.count(1, reader.objects[name][0].place, len(spelled), f' ({spelled})')
        for key, spelled in [*script.predicates.items(), *script.sorts.items()]:
            place = places.get(key[1] if key[0] == FALSE else key, elsewhere)
            self.count(1, place, len(spelled), f' ({spelled})')

    def first_past(self, number, words):
        """The place of the first of the words that is too many, or that of the domain's name."""
        places, greatest = [word.place for word in words], self.greatest(number)
        return places[greatest] if len(places) > greatest else self.reader.domain['name'].place

    def numbers(self):
        script, reader = self.script, self.reader
        self.count(2, self.first_past(2, [word for word, _ in reader.objects.values()]), len(reader.objects))
        more = len(script.predicates) - len(reader.predicates)
        self.count(3, self.first_past(3, [word for word, _ in reader.predicates.values()]), len(script.predicates),
                   ', with those of types and conditions' if more else '')
        for name, (word, kinds) in reader.predicates.items():
            self.count(4, word.place, len(kinds), f' ({name})')
        self.count(8, self.first_past(8, [one.action.name for one in script.strips.operators]), len(script.operators))
        self.count(17, reader.domain['name'].place, len(script.sorts))

    def operator(self, operator):
        action, (_, _, lists) = operator.action, self.script.operator(operator)
        name = self.script.operators[action.name.text, operator.case]
        self.count(1, action.name.place, len(name), f' ({name})')
        self.count(9, action.name.place, len(action.parameters), f' ({name})')
        for kind, atoms in lists.items():
            self.count(10, action.name.place, len(atoms), f' ({kind} of {name})')

    def facts_and_goal(self):
        script, reader = self.script, self.reader
        init, goal = reader.problem.get(':init'), reader.problem[':goal'].place
        written = len({(fact.predicate, fact.arguments) for fact in reader.facts})
        facts, atoms = len(script.facts()), script.goal()
        self.count(11, init.place if init else reader.problem['name'].place, facts,
                   ', with those of types, complements and unequal objects' if facts > written else '')
        self.count(7, goal, len(set(re.findall(r'\?\w+', ' '.join(atoms)))))
        self.count(12, goal, len(atoms), ', with those of types' if any(kind != OBJECT for _, kind in reader.variables) else '')
