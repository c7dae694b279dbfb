"""What a domain and a problem declare: types, predicates, objects, actions, facts and the goal, checked as they are read."""
import functools
from dataclasses import dataclass, field

from .forms import (ALWAYS, AMOUNTS, COSTS, EFFECTS, HEADS, Form, Refused, Word, head_of, name_of, not_taken, sections,
                    typed_list)

OBJECT = ('object',)


@dataclass(frozen=True)
class Atom:
    predicate: str
    arguments: tuple
    place: object


@dataclass(frozen=True)
class Literal:
    """An atom, or an equality of two terms, that has to be true or to be false."""
    atom: Atom
    positive: bool


@dataclass
class Action:
    name: Word
    parameters: list = field(default_factory=list)  # pairs of a variable's Word and a type
    conditions: list = field(default_factory=list)
    deletes: list = field(default_factory=list)
    adds: list = field(default_factory=list)


def shown(kind):
    return kind[0] if len(kind) == 1 else f'(either {" ".join(kind)})'


class Types:
    """The types of a domain. A type is a tuple of names: of what has it, it is only known that it has one of them."""

    def __init__(self, section):
        self.parents = {}
        pairs = typed_list(section.items[1:], 'a type') if section else []
        for word, above in pairs:
            self.declare(word, tuple(one.text for one in above or ()) or OBJECT)
        for _, above in pairs:
            self.named(above)
        for word, _ in pairs:
            self.refuse_circle(word)

    def declare(self, word, above):
        """Puts a type below others. To say again that it is below `object` says nothing."""
        known = self.parents.get(word.text, OBJECT)
        if word.text == 'object' and above != OBJECT or known not in (OBJECT, above) and above != OBJECT:
            wrong = 'object is above each other type' if word.text == 'object' else (
                f'the type {word.text} is declared twice, below {shown(known)} and below {shown(above)}')
            raise Refused(word.place, wrong)
        if word.text != 'object':
            self.parents[word.text] = above if known == OBJECT else known

    def named(self, words):
        """The type that Words name."""
        for word in words or ():
            if word.text != 'object' and word.text not in self.parents:
                raise Refused(word.place, f'unknown type {word.text}')
        names = tuple(sorted({word.text for word in words or ()}))
        return OBJECT if not names or 'object' in names else names

    def refuse_circle(self, word):
        waiting, seen = list(self.parents.get(word.text, ())), set()
        while waiting:
            above = waiting.pop()
            if above == word.text:
                raise Refused(word.place, f'the type {word.text} is below itself')
            if above != 'object' and above not in seen:
                seen.add(above)
                waiting += self.parents[above]

    @functools.lru_cache(None)
    def below(self, upper):
        """The names of all types that are the type, a part of it, or below it."""
        found, more = set(), set(upper)
        while more:
            found |= more
            more = {name for name, above in self.parents.items() if name not in found and found.issuperset(above)}
        return found

    def fits(self, lower, upper):
        """Is the one type the other, or below it?"""
        return 'object' in upper or self.below(upper).issuperset(lower)


class Reader:
    """What the two files declare."""

    def __init__(self, domain, problem, ignore_costs=False):
        self.domain = sections(domain, 'domain', {':requirements', ':types', ':constants', ':predicates', ':functions', ':action'})
        self.problem = sections(problem, 'problem', {':domain', ':requirements', ':objects', ':init', ':goal', ':metric'})
        self.ignore_costs, self.costs = ignore_costs, 0
        self.check_domain_name()
        self.types = Types(self.domain.get(':types'))
        self.predicates = {}  # name to its Word and the types of its arguments
        self.read_predicates()
        self.objects = {}  # name to its Word and its type
        self.read_objects(self.domain.get(':constants'))
        self.actions = []
        for section in self.domain[':action']:
            self.actions.append(self.read_action(section))
        self.read_objects(self.problem.get(':objects'))
        self.facts = self.read_init()
        self.variables, self.goal = self.read_goal()
        if ':metric' in self.problem:
            self.leave_out(self.problem[':metric'].place, '(:metric ..)')

    def check_domain_name(self):
        section = self.problem.get(':domain')
        if not section or len(section.items) != 2 or isinstance(section.items[1], Form):
            place = section.place if section else self.problem['name'].place
            raise Refused(place, '(:domain NAME) is wanted in a problem')
        if section.items[1].text != self.domain['name'].text:
            raise Refused(section.items[1].place, f'the problem is of the domain {section.items[1].text}, and not of '
                                                  f'{self.domain["name"].text}')

    def leave_out(self, place, what):
        """Counts a part that only says what a plan costs, or refuses it."""
        if not self.ignore_costs:
            raise not_taken(place, f'{COSTS[0]} {what}', COSTS[1])
        self.costs += 1

    def of_type(self, kind):
        return [name for name, (_, own) in self.objects.items() if self.types.fits(own, kind)]

    def read_predicates(self):
        section = self.domain.get(':predicates')
        for form in section.items[1:] if section else []:
            if isinstance(form, Word) or not form.items:
                raise Refused(form.place, 'a predicate is written (NAME ?x ..)')
            name = name_of(form.items[0], 'the name of a predicate') if form.head() != '=' else '='
            if name in self.predicates:
                raise Refused(form.items[0].place, f'the predicate {name} is declared twice')
            if name in ALWAYS:
                raise Refused(form.items[0].place, f'no predicate may be called {name}')
            kinds = [self.types.named(kind) for _, kind in typed_list(form.items[1:], 'a variable', '?')]
            self.predicates[name] = form.items[0], kinds

    def read_objects(self, section):
        for word, kind in typed_list(section.items[1:], 'a name') if section else []:
            if word.text in self.objects:
                raise Refused(word.place, f'the object {word.text} is declared twice')
            self.objects[word.text] = word, self.types.named(kind)

    def read_atom(self, form, variables, names=HEADS):
        """An atom over the objects so far and the variables, each with its type."""
        if isinstance(form, Word):
            raise Refused(form.place, f'an atom in parentheses is wanted here, not {form.text}')
        head = form.head()
        if head in names and (head in ALWAYS or head not in self.predicates):
            raise not_taken(form.place, *names[head], head)
        if head not in self.predicates:
            raise Refused(form.place, f'unknown predicate {head or "(..)"}')
        kinds, terms = self.predicates[head][1], form.items[1:]
        if len(terms) != len(kinds):
            raise Refused(form.place, f'{head} has {len(terms)} arguments here and {len(kinds)} where it is declared')
        for term, kind in zip(terms, kinds):
            own = self.type_of_term(term, variables)
            if not self.types.fits(own, kind):
                raise Refused(term.place, f'{term.text} is of the type {shown(own)}, and {head} takes {shown(kind)} here')
        return Atom(head, tuple(term.text for term in terms), form.place)

    def type_of_term(self, term, variables):
        if isinstance(term, Form):
            raise not_taken(term.place, 'a term in parentheses', AMOUNTS[1], term.head() or '..')
        if term.text.startswith('?'):
            if term.text not in variables:
                raise Refused(term.place, f'unknown variable {term.text}')
            return variables[term.text]
        if name_of(term, 'a name or a variable') not in self.objects:
            raise Refused(term.place, f'unknown object {term.text}')
        return self.objects[term.text][1]

    def read_equality(self, form, variables):
        if len(form.items) != 3:
            raise Refused(form.place, '(= TERM TERM) is wanted')
        for term in form.items[1:]:
            if isinstance(term, Form) or term.text[:1].isdigit():
                raise not_taken(form.place, *AMOUNTS, '=')
            self.type_of_term(term, variables)
        return Atom('=', tuple(term.text for term in form.items[1:]), form.place)

    def read_conditions(self, form, variables):
        """The literals of a conjunction, from left to right; () is the empty one."""
        literals, waiting = [], [(form, True)]
        while waiting:
            part, positive = waiting.pop()
            head = head_of(part)
            if isinstance(part, Form) and (head == 'and' or not part.items):
                if not positive:
                    raise not_taken(part.place, *HEADS['or'], 'not (and')
                waiting += [(one, True) for one in reversed(part.items[1:])]
            elif head == 'not':
                if len(part.items) != 2:
                    raise Refused(part.place, '(not ..) has one part')
                waiting.append((part.items[1], not positive))
            else:
                read = self.read_equality if head == '=' else self.read_atom
                literals.append(Literal(read(part, variables), positive))
        return literals

    def read_effects(self, action, form, variables):
        waiting, names = [form], {**HEADS, **EFFECTS}
        while waiting:
            part = waiting.pop()
            head = head_of(part)
            if isinstance(part, Form) and (head == 'and' or not part.items):
                waiting += reversed(part.items[1:])
            elif head == 'not':
                if len(part.items) != 2:
                    raise Refused(part.place, '(not ..) has one atom')
                action.deletes.append(self.read_atom(part.items[1], variables, {**names, 'not': ('a double negation', 'leave it out')}))
            elif head == 'increase' and len(part.items) == 3 and head_of(part.items[1]) == 'total-cost':
                self.leave_out(part.place, '(increase (total-cost) ..)')
            else:
                action.adds.append(self.read_atom(part, variables, names))

    def action_parts(self, section):
        """The forms of an action by their keys."""
        given = {}
        for at in range(2, len(section.items), 2):
            key = section.items[at]
            if isinstance(key, Form) or key.text not in (':parameters', ':precondition', ':effect') or key.text in given:
                raise Refused(key.place, f'{getattr(key, "text", "(..)")} is no part of an action, or a second one')
            if at + 1 == len(section.items) or isinstance(section.items[at + 1], Word):
                raise Refused(key.place, f'a form in parentheses is wanted after {key.text}')
            given[key.text] = section.items[at + 1]
        return given

    def read_action(self, section):
        if len(section.items) < 2:
            raise Refused(section.place, 'an action has a name')
        action = Action(Word(name_of(section.items[1], 'the name of an action'), section.items[1].place))
        if any(action.name.text == other.name.text for other in self.actions):
            raise Refused(action.name.place, f'the action {action.name.text} is declared twice')
        given = self.action_parts(section)
        pairs = typed_list(given[':parameters'].items, 'a variable', '?') if ':parameters' in given else []
        action.parameters, variables = self.declare_variables(pairs)
        action.conditions = self.read_conditions(given.get(':precondition', Form([], section.place)), variables)
        self.read_effects(action, given.get(':effect', Form([], section.place)), variables)
        return action

    def declare_variables(self, pairs, known=None):
        variables, declared = dict(known or {}), []
        for word, kind in pairs:
            if word.text in variables:
                raise Refused(word.place, f'the variable {word.text} is declared twice')
            variables[word.text] = self.types.named(kind)
            declared.append((word, variables[word.text]))
        return declared, variables

    def read_init(self):
        """The facts. That an atom is false needn't be said, and may be."""
        section, facts, absent = self.problem.get(':init'), [], []
        for form in section.items[1:] if section else []:
            head = head_of(form)
            if head == '=' and len(form.items) == 3:
                self.leave_out(form.place, '(= ..)')
            elif head == 'at' and head_of(form.items[-1]):
                raise not_taken(form.place, *HEADS['at'], 'at')
            elif head == 'not' and len(form.items) == 2:
                absent.append(self.read_atom(form.items[1], {}))
            else:
                facts.append(self.read_atom(form, {}, {**HEADS, 'not': ('a negation of no atom', 'leave it out')}))
        present = {(fact.predicate, fact.arguments) for fact in facts}
        for atom in absent:
            if (atom.predicate, atom.arguments) in present:
                raise Refused(atom.place, 'this is both a fact and none')
        return facts

    def read_goal(self):
        section = self.problem.get(':goal')
        if not section or len(section.items) != 2:
            raise Refused(section.place if section else self.problem['name'].place, '(:goal ..) with one formula is wanted')
        form, declared, variables = section.items[1], [], {}
        while head_of(form) == 'exists':
            if len(form.items) != 3 or isinstance(form.items[1], Word):
                raise Refused(form.place, '(exists (?x ..) FORMULA) is wanted')
            more, variables = self.declare_variables(typed_list(form.items[1].items, 'a variable', '?'), variables)
            declared += more
            form = form.items[2]
        return declared, self.read_conditions(form, variables)
