"""Makes STRIPS of what was read: positive preconditions alone, with predicates that say what is false, unequal or equal.

A predicate is known by a key: its name; a type; or a pair of one of the words below and a name or nothing. What a key is called
in a script is decided in script.py.
"""
import itertools
import math
from dataclasses import dataclass

from .forms import PAGE, Refused
from .reader import OBJECT, Atom

# no name of PDDL begins so
FALSE, UNEQUAL, EQUAL = '~not', ('~different', ''), ('~same', '')
GREATEST_PRODUCT = 1_000_000
GREATEST_LIST = 16


@dataclass
class Operator:
    action: object
    case: int  # from 1; an action has several where it makes a difference whether two terms are equal
    pre: list
    deletes: list
    adds: list


def refuse_many(choices, place, what):
    """Refuses a condition for which so many facts are needed that to write them down would take long."""
    product = math.prod(len(choice) for choice in choices)
    if product > GREATEST_PRODUCT:
        raise Refused(place, f'limit 11, different facts: {product} {what}, and at most 1024 ({PAGE})')


class Scope:
    """The terms of an action or of the goal, and which objects each may be."""

    def __init__(self, reader, parameters):
        self.kinds = {word.text: kind for word, kind in parameters}
        self.objects = {name: reader.of_type(kind) for name, kind in self.kinds.items()}

    def of(self, term):
        return self.objects.get(term, [term])

    def may_be_equal(self, one, other):
        return one == other or not set(self.of(one)).isdisjoint(self.of(other))


class Strips:
    """Operators, facts and the goal, with the facts in the order in which a script says them."""

    def __init__(self, reader, distinct, sorts):
        self.reader, self.distinct = reader, distinct
        self.scopes = {action.name.text: Scope(reader, action.parameters) for action in reader.actions}
        self.goal_scope = Scope(reader, reader.variables)
        lists = [(self.scopes[action.name.text], action.conditions) for action in reader.actions]
        self.conditions = [(scope, literal) for scope, literals in lists + [(self.goal_scope, reader.goal)] for literal in literals]
        self.negated = list(dict.fromkeys(literal.atom.predicate for _, literal in self.conditions
                                          if not literal.positive and literal.atom.predicate != '='))
        self.sorts = self.types_as_sorts() if sorts else []
        self.types = self.types_as_predicates()
        self.pairs = {UNEQUAL: {}, EQUAL: {}}
        self.operators = [operator for action in reader.actions for operator in self.operators_of(action)]
        self.goal = self.plain(reader.goal, self.goal_scope)
        self.goal += self.types_of([pair for pair in reader.variables if pair[1] != OBJECT], self.goal)
        self.facts = self.all_facts()

    def types_as_sorts(self):
        """The types of parameters of which no object has a type below, and some object has the type."""
        found = []
        for _, kind in itertools.chain.from_iterable(action.parameters for action in self.reader.actions):
            owns = [self.reader.objects[name][1] for name in self.reader.of_type(kind)]
            if kind != OBJECT and kind not in found and owns and all(own == kind for own in owns):
                found.append(kind)
        return found

    def types_as_predicates(self):
        """The types that no sort says. Variables of a goal have no sorts."""
        kinds = [kind for action in self.reader.actions for _, kind in action.parameters if kind not in self.sorts]
        kinds += [kind for _, kind in self.reader.variables]
        return [kind for kind in dict.fromkeys(kinds) if kind != OBJECT]

    # ---- Conditions ----

    def plain(self, literals, scope):
        """The atoms of conditions. An inequality that always holds is left out."""
        atoms = []
        for literal in literals:
            atom = literal.atom
            if atom.predicate == '=':
                atoms += self.equality(atom, literal.positive, scope)
            else:
                atoms.append(atom if literal.positive else Atom((FALSE, atom.predicate), atom.arguments, atom.place))
        return atoms

    def equality(self, atom, positive, scope):
        """At most one atom that says whether two terms are equal, and the facts that it needs."""
        one, other = atom.arguments
        if positive and one == other or not positive and not scope.may_be_equal(one, other):
            return []
        key = EQUAL if positive else UNEQUAL
        refuse_many([scope.of(one), scope.of(other)], atom.place, 'pairs of objects')
        products = itertools.product(scope.of(one), scope.of(other)) if one != other else ()
        self.pairs[key].update({pair: None for pair in products if (pair[0] == pair[1]) == positive})
        return [Atom(key, (one, other), atom.place)]

    def types_of(self, parameters, atoms):
        """The atoms that say the types of parameters. Where the list would be too long, those that its other atoms say are left out."""
        said = set()
        for atom in atoms if len(atoms) + len(parameters) > GREATEST_LIST else ():
            _, kinds = self.reader.predicates.get(atom.predicate, (None, ()))
            said.update((term, upper) for term, kind in zip(atom.arguments, kinds) for _, upper in parameters
                        if self.reader.types.fits(kind, upper))
        return [Atom(kind, (word.text,), word.place) for word, kind in parameters if (word.text, kind) not in said]

    def overlaps(self, action):
        """The pairs of parameters that one object could fill, where they are told apart."""
        scope, names = self.scopes[action.name.text], [word.text for word, _ in action.parameters]
        return [pair for pair in itertools.combinations(names, 2) if self.distinct and scope.may_be_equal(*pair)]

    # ---- Operators ----

    def operators_of(self, action):
        """The operators of an action: one, or one for each case of terms being equal on which its effects depend."""
        found = []
        for case, (equal, unequal) in enumerate(self.cases(action, (), self.unequal_terms(action)), 1):
            scope, place = self.scopes[action.name.text], action.name.place
            pre = self.plain(action.conditions, scope)
            pre += self.types_of([pair for pair in action.parameters if pair[1] in self.types], pre)
            told = {frozenset(atom.arguments) for atom in pre if atom.predicate == UNEQUAL}
            for pair in [*self.overlaps(action), *unequal]:
                if frozenset(pair) not in told:
                    told.add(frozenset(pair))
                    pre += self.equality(Atom('=', pair, place), False, scope)
            for pair in equal:
                pre += self.equality(Atom('=', pair, place), True, scope)
            void = [clash[1] for clash in self.clashes(action) if all(pair in equal for pair in clash[2])]
            deletes = [atom for atom in action.deletes if atom not in void]
            found.append(Operator(action, case, pre, deletes + self.falsified(action.adds), action.adds + self.falsified(deletes)))
        return found

    def falsified(self, atoms):
        """The complements of those atoms whose predicates have one."""
        return [Atom((FALSE, atom.predicate), atom.arguments, atom.place) for atom in atoms if atom.predicate in self.negated]

    def unequal_terms(self, action):
        """The pairs of terms that an action's own conditions tell apart."""
        pairs = [literal.atom.arguments for literal in action.conditions if literal.atom.predicate == '=' and not literal.positive]
        return tuple(pairs + self.overlaps(action))

    def clashes(self, action):
        """An add and a delete of one complemented predicate that may be one atom, with the pairs of terms that make them one."""
        scope = self.scopes[action.name.text]
        known = {(literal.positive, literal.atom.predicate, literal.atom.arguments) for literal in action.conditions}
        for add, delete in itertools.product(action.adds, action.deletes):
            if add.predicate != delete.predicate or add.predicate not in self.negated:
                continue
            sides = [(sign, atom.predicate, atom.arguments) for sign, atom in ((False, add), (True, delete))]
            if all(side in known for side in sides) or all((not side[0], *side[1:]) in known for side in sides):
                continue
            pairs = [pair for pair in zip(add.arguments, delete.arguments) if pair[0] != pair[1]]
            if all(scope.may_be_equal(*pair) for pair in pairs):
                yield add, delete, pairs

    def cases(self, action, equal, unequal):
        """What is equal and what isn't in each case, so that it is known which deleted atoms are added, too."""
        apart = {frozenset(pair) for pair in unequal}
        for _, _, pairs in self.clashes(action):
            open_pairs = [pair for pair in pairs if pair not in equal]
            if open_pairs and not any(frozenset(pair) in apart for pair in pairs):
                first = open_pairs[0]
                return self.cases(action, equal, (*unequal, first)) + self.cases(action, (*equal, first), unequal)
        return [(equal, unequal)]

    # ---- Facts ----

    def all_facts(self):
        facts = {(fact.predicate, fact.arguments): None for fact in self.reader.facts}
        facts.update(self.false_facts(set(facts)))
        for kind in self.types:
            facts.update({(kind, (name,)): None for name in self.reader.of_type(kind)})
        for key, pairs in self.pairs.items():
            facts.update({(key, pair): None for pair in pairs})
        return list(facts)

    def false_facts(self, true):
        """The complements that hold at first, of those atoms for which some condition may ask."""
        found = {}
        for scope, literal in self.conditions:
            atom = literal.atom
            if literal.positive or atom.predicate == '=':
                continue
            names = list(dict.fromkeys(atom.arguments))
            choices = [scope.of(name) for name in names]
            refuse_many(choices, atom.place, 'atoms that may be false')
            for chosen in itertools.product(*choices):
                values = dict(zip(names, chosen))
                arguments = tuple(values[name] for name in atom.arguments)
                if (atom.predicate, arguments) not in true:
                    found[(FALSE, atom.predicate), arguments] = None
        return found
