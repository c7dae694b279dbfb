"""Random domains with negative conditions, equalities and unions of types: each script is simulated beside its PDDL files.

In each state, an instance of an action is allowed in PDDL exactly where one of the operators of the action has a true precondition,
the facts of the script that aren't its own are the true atoms, and the goals agree. Then one of the steps is taken in both.
"""
import importlib.machinery
import importlib.util
import itertools
import pathlib
import random
import re
import subprocess
import tempfile

TOOLS = pathlib.Path(__file__).resolve().parent.parent.parent / 'tools'
PREDICATES = {'p': 1, 'q': 2, 's': 1, 'z': 0}
TYPES = ['t', 'u', 'v', '(either t v)', '(either u v)']


def validator():
    """The tool validate-pddl-plan as a module."""
    loader = importlib.machinery.SourceFileLoader('validate', str(TOOLS / 'validate-pddl-plan'))
    module = importlib.util.module_from_spec(importlib.util.spec_from_loader('validate', loader))
    loader.exec_module(module)
    return module


def atom(draw, terms):
    predicate = draw.choice(list(PREDICATES))
    return f'({" ".join([predicate] + [draw.choice(terms) for _ in range(PREDICATES[predicate])])})'


def condition(draw, terms):
    forms = ['{a}', '(not {a})', '(not (= {x} {y}))', '(= {x} {y})', '(not (not {a}))', '(and {a} (not {b}))']
    form = draw.choices(forms, [6, 6, 2, 1, 1, 2])[0]
    return form.format(a=atom(draw, terms), b=atom(draw, terms), x=draw.choice(terms), y=draw.choice(terms))


def action(draw, number, constants):
    variables = [f'?x{place}' for place in range(draw.randint(1, 3))]
    parameters = ' '.join(f'{name} - {draw.choice(["object"] + TYPES)}' for name in variables)
    terms = variables + constants
    conditions = ' '.join(condition(draw, terms) for _ in range(draw.randint(0, 2)))
    effects = ' '.join(draw.choice(['{}', '(not {})']).format(atom(draw, terms)) for _ in range(draw.randint(1, 4)))
    return f'(:action a-{number} :parameters ({parameters}) :precondition (and {conditions}) :effect (and {effects}))'


def files(draw):
    """A domain, with a mark of byte order at its head, and a problem."""
    names = [f'o{place}' for place in range(draw.randint(2, 4))]
    typed = {name: f'{name} - {draw.choice(TYPES)}' for name in names}
    constants = names[:draw.randint(0, 1)]
    actions = ' '.join(action(draw, number, constants) for number in range(draw.randint(1, 3)))
    domain = (f'\ufeff(define (domain d) (:types t - object u - t v) (:constants {" ".join(typed[name] for name in constants)})'
              f'(:predicates (p ?x) (Q ?x ?y) (s ?x) (z)) {actions})')
    problem = (f'(define (problem one) (:domain d) (:objects {" ".join(typed[name] for name in names if name not in constants)})'
               f'(:init {" ".join(atom(draw, names) for _ in range(draw.randint(0, 6)))})'
               f'(:goal (and (z) {" ".join(condition(draw, names) for _ in range(draw.randint(1, 3)))})))')
    return domain, problem


class Script:
    """A script as it is read here: operators, facts and the goal, each atom a tuple of names."""

    def __init__(self, text):
        self.operators, self.facts, self.goal, self.sorts, self.actions = {}, set(), [], {}, {}
        for line in text.splitlines():
            renamed = re.match(r'# pddl operator (\S+) is (\S+)', line)
            if renamed:
                self.actions[renamed.group(1)] = renamed.group(2)
            elif line and not line.startswith('#'):
                self.read(*line.split())

    def read(self, word, *rest):
        atoms = [tuple(re.findall(r'\w+', part)) for part in rest]
        if word == 'operator':
            self.last = {'parameters': atoms[0][1:], 'pre': [], 'delete': [], 'add': [], 'sorts': {}}
            self.operators[atoms[0][0]] = self.last
        elif word in ('pre', 'delete', 'add'):
            self.last[word] += atoms
        elif word == 'param':
            self.last['sorts'].update(dict.fromkeys(rest[1:], rest[0]))
        elif word == 'sort':
            self.sorts.update(dict.fromkeys(rest[1:], rest[0]))
        elif word == 'fact':
            self.facts |= set(atoms)
        elif word == 'plan':
            self.goal = atoms[1:]

    def ground(self, operator, part, objects):
        values = dict(zip(operator['parameters'], objects))
        return [tuple([first] + [values.get(name, name) for name in names]) for first, *names in operator[part]]

    def applicable(self, name, objects):
        """The operators of an action that the objects fit, and whose preconditions are true."""
        return [operator for spelled, operator in self.operators.items() if self.actions.get(spelled, spelled) == name
                and all(operator['sorts'].get(one) in (None, self.sorts.get(other)) for one, other in zip(operator['parameters'], objects))
                and all(atom in self.facts for atom in self.ground(operator, 'pre', objects))]


def compare(validate, task, script, draw):
    """What differs in a random walk, if anything."""
    for _ in range(12):
        if {fact for fact in script.facts if fact[0] in PREDICATES} != task.state:
            return 'the facts aren\'t the true atoms'
        if all(atom in script.facts for atom in script.goal) != task.holds(task.goal, {}):
            return 'the goals differ'
        choices = []
        for name, parts in task.actions.items():
            kinds = validate.typed(parts[':parameters'])
            for objects in itertools.product(task.objects, repeat=len(kinds)):
                allowed = all(task.is_a(one, kind) for one, kind in zip(objects, kinds.values())) and task.holds(
                    parts[':precondition'], dict(zip(kinds, objects)))
                able = script.applicable(name, objects)
                if len(able) != allowed:
                    return f'{name}{objects}: {len(able)} operators, where PDDL says {allowed}'
                choices += [(name, objects, operator) for operator in able]
        if not choices:
            return None
        name, objects, operator = draw.choice(choices)
        task.step(name, list(objects))
        deleted, added = (set(script.ground(operator, part, objects)) for part in ('delete', 'add'))
        script.facts = script.facts - deleted | added
    return None


def rows(first=0, count=30):
    """The name of each try, and what is wrong with it, if anything."""
    validate = validator()
    with tempfile.TemporaryDirectory() as folder:
        paths = [pathlib.Path(folder, name) for name in ('d', 'p')]
        for seed in range(first, first + count):
            draw = random.Random(seed)
            for path, text in zip(paths, files(draw)):
                path.write_text(text, encoding='utf-8')
            options = ['--sorts'] if seed % 2 else []
            ran = subprocess.run([TOOLS / 'from-pddl', *options, *paths], capture_output=True, text=True)
            yield f'random domain {seed}', ran.stderr or compare(validate, validate.Task(*paths), Script(ran.stdout), draw)
