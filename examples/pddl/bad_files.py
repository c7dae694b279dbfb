"""The table of bad files: what is changed in a good pair of files, and the messages with which from-pddl refuses it. Then changes that
change nothing."""
import re

DOMAIN = """(define (domain d)
  (:requirements :strips :typing)
  (:types box - thing thing)
  (:constants c - box)
  (:predicates (p ?x - box) (q ?x ?y))
  (:action go
    :parameters (?x - box)
    :precondition (and (p ?x))
    :effect (and (q ?x c) (not (p ?x)))))
"""
PROBLEM = """(define (problem one)
  (:domain d)
  (:objects a - box t - thing)
  (:init (p a))
  (:goal (and (q a c))))
"""

# What follows a message that something isn't taken, and those that limits are passed.
PAGE = ' (docs/PDDL.md, "What isn\'t taken")'
LIMITS = '\nfrom-pddl: docs/PDDL.md, "What isn\'t taken", says what can be done about limits'
EMPTY = 'p:5:10: the goal is empty: a goal of a script has at least one atom. No script is needed: the empty plan reaches it' + PAGE

# Name, the text that is replaced in the domain or the problem, its replacement, and the message.
EDITS = [
    # The form of files
    ('a parenthesis is missing at the end', '(not (p ?x)))))', '(not (p ?x))))', 'd:1:1: this parenthesis is never closed'),
    ('a parenthesis is missing in a section', '(p ?x - box) (q ?x ?y))', '(p ?x - box) (q ?x ?y)',
     'd:6:3: (:action stands inside another section: a parenthesis is missing before it'),
    ('a section after the end', '(p a))', '(p a)))', 'p:5:3: nothing may stand after the form (define ..)'),
    ('a parenthesis too many at the end', '(q a c))))', '(q a c)))))', 'p:5:25: a parenthesis too many'),
    ('a word after the end', '(q a c))))', '(q a c))))\nend', 'p:6:1: end stands outside (define ..)'),
    ('no file of a domain', '(define (domain d)', '(define (problem d)',
     'd:1:1: a file that begins (define (domain NAME) is wanted'),
    ('a character that no name has', '(p a))', '(p \u00e4))', "p:4:13: '\\xe4' has a character that no PDDL name has"),
    ('a name that begins with a digit', 'a - box t', '1a - box t', 'p:3:13: a name is wanted here, not 1a'),
    ('a hyphen without names', '(:types box', '(:types - box', 'd:3:11: a type stands between names and the next name'),
    ('an unknown section', '(:init', '(:start', 'p:4:3: (:start is no section of a problem'),
    ('a second section', '  (:init', '  (:objects b)\n  (:init', 'p:4:3: a second section (:objects'),
    ('no goal', '(:goal (and (q a c)))', '', 'p:1:18: (:goal ..) with one formula is wanted'),
    ('an action without its list', ':effect (and (q ?x c) (not (p ?x)))', ':effect',
     'd:9:5: a form in parentheses is wanted after :effect'),
    ('no part of an action', ':effect', ':effects', 'd:9:5: :effects is no part of an action, or a second one'),
    # Names, types and arities
    ('another domain', '(:domain d)', '(:domain e)', 'p:2:12: the problem is of the domain e, and not of d'),
    ('an unknown type of an object', 't - thing', 't - thong', 'p:3:25: unknown type thong'),
    ('an unknown type of a parameter', ':parameters (?x - box)', ':parameters (?x - crate)', 'd:7:23: unknown type crate'),
    ('an unknown type above', 'box - thing thing', 'box - thing', 'd:3:17: unknown type thing'),
    ('a cyclic type', 'box - thing thing', 'box - thing thing - box', 'd:3:11: the type box is below itself'),
    ('a type below two others', 'box - thing thing', 'box - thing thing lid box - lid',
     'd:3:33: the type box is declared twice, below thing and below lid'),
    ('a type above all', 'box - thing thing', 'box object - thing thing', 'd:3:15: object is above each other type'),
    ('no variable', ':parameters (?x - box)', ':parameters (??x - box)', 'd:7:18: a variable is wanted here, not ??x'),
    ('an object twice', 'a - box t', 'a a - box t', 'p:3:15: the object a is declared twice'),
    ('a constant as an object', 'a - box t', 'a c - box t', 'p:3:15: the object c is declared twice'),
    ('a predicate twice', '(q ?x ?y))', '(q ?x ?y) (P))', 'd:5:40: the predicate p is declared twice'),
    ('an action twice', '\n  (:action go', '\n  (:action go)\n  (:action go', 'd:7:12: the action go is declared twice'),
    ('a parameter twice', '(?x - box)\n', '(?x ?x - box)\n', 'd:7:21: the variable ?x is declared twice'),
    ('an arity that differs', '(:init (p a))', '(:init (p a c))', 'p:4:10: p has 2 arguments here and 1 where it is declared'),
    ('an arity that differs in an action', '(and (q ?x c)', '(and (q ?x)',
     'd:9:18: q has 1 arguments here and 2 where it is declared'),
    ('an unknown predicate', '(:init (p a))', '(:init (r a))', 'p:4:10: unknown predicate r'),
    ('an unknown object', '(:init (p a))', '(:init (p b))', 'p:4:13: unknown object b'),
    ('an object of the problem in the domain', '(q ?x c)', '(q ?x a)', 'd:9:24: unknown object a'),
    ('an unknown variable', '(q ?x c)', '(q ?y c)', 'd:9:21: unknown variable ?y'),
    ('a variable in the facts', '(:init (p a))', '(:init (p ?x))', 'p:4:13: unknown variable ?x'),
    ('an object of another type', '(:init (p a))', '(:init (p t))', 'p:4:13: t is of the type thing, and p takes box here'),
    ('a parameter of another type', '(?x - box)\n', '(?x - thing)\n', 'd:8:27: ?x is of the type thing, and p takes box here'),
    # Features that aren't taken
    ('no requirement', ':typing)', ':typing more)', 'd:2:34: a requirement is a word such as :strips, not more'),
    ('a negated conjunction', '(and (p ?x))', '(not (and (p ?x) (p c)))',
     'd:8:24: not taken: a disjunction (not (and ..); write an action, or a problem, for each part'),
    ('a disjunction', '(and (p ?x))', '(or (p ?x) (p c))',
     'd:8:19: not taken: a disjunction (or ..); write an action, or a problem, for each part'),
    ('an implication', '(and (p ?x))', '(imply (p ?x) (p c))',
     'd:8:19: not taken: an implication (imply ..); write an action for each of the two cases'),
    ('a universal condition', '(and (p ?x))', '(forall (?y) (p ?x))',
     'd:8:19: not taken: a universal condition (forall ..); write the condition of each object'),
    ('an existential precondition', '(and (p ?x))', '(exists (?y) (p ?x))',
     'd:8:19: not taken: an existential condition other than at the top of the goal (exists ..); make its variables parameters, '
     'or move it to the top'),
    ('a negated existential condition', '(and (q a c))', '(not (exists (?y) (q ?y c)))',
     'p:5:15: not taken: an existential condition other than at the top of the goal (exists ..); make its variables parameters, '
     'or move it to the top'),
    ('equality in an effect', '(and (q ?x c)', '(and (= ?x c)',
     'd:9:18: not taken: equality in an effect (= ..); it has its place in conditions'),
    ('equality of three', '(and (p ?x))', '(= ?x c c)', 'd:8:19: (= TERM TERM) is wanted'),
    ('a conditional effect', '(and (q ?x c)', '(and (when (p c) (q ?x c))',
     'd:9:18: not taken: a conditional effect (when ..); write an action for each of the two cases'),
    ('an effect for all', '(and (q ?x c)', '(and (forall (?y) (q ?x ?y))',
     'd:9:18: not taken: an effect for all (forall ..); write an effect of each object, or an action for each'),
    ('an effect on a number', '(and (q ?x c)', '(and (increase (fuel) 1)',
     'd:9:18: not taken: numbers (increase ..); write amounts as objects, with a predicate that says which comes next'),
    ('a number in a condition', '(and (p ?x))', '(= (fuel ?x) 1)',
     'd:8:19: not taken: numbers (= ..); write amounts as objects, with a predicate that says which comes next'),
    ('an effect on the cost', '(and (q ?x c)', '(and (increase (total-cost) 1)',
     'd:9:18: not taken: costs (increase (total-cost) ..); --ignore-costs leaves them out'),
    ('a cost in the facts', '(:init (p a))', '(:init (p a) (= (total-cost) 0))',
     'p:4:16: not taken: costs (= ..); --ignore-costs leaves them out'),
    ('a metric', '  (:init', '  (:metric minimize (total-cost))\n  (:init',
     'p:4:3: not taken: costs (:metric ..); --ignore-costs leaves them out'),
    ('an axiom of PDDL', '  (:action go', '  (:derived (p ?x) (q ?x c))\n  (:action go',
     'd:6:3: not taken: axioms of PDDL (:derived); let the actions add and delete what would follow'),
    ('a durative action', '(:action go', '(:durative-action go',
     'd:6:3: not taken: durative actions; write plain actions: a script has no time'),
    ('a timed literal', '(:init (p a))', '(:init (at 5 (p a)))',
     'p:4:10: not taken: a timed literal (at ..); write plain actions: a script has no time'),
    ('a timed literal beside a predicate', '(:init (p a))', '(:init (p a) (at 5 (p a)))',
     'p:4:16: not taken: a timed literal (at ..); write plain actions: a script has no time'),
    ('a union of types where one of them is wanted', 'a - box t', 'a - (either box thing) t',
     'p:4:13: a is of the type (either box thing), and p takes box here'),
    ('an unknown type in a union', 'a - box t', 'a - (either box crate) t', 'p:3:29: unknown type crate'),
    ('no union of types', 'a - box t', 'a - (or box thing) t', 'p:3:17: a type is a name, or (either NAME ..)'),
    ('a fact that is also none', '(:init (p a))', '(:init (p a) (not (p a)))', 'p:4:21: this is both a fact and none'),
    ('a goal of equal terms alone', '(and (q a c))', '(= a a)', EMPTY),
    ('an empty goal', '(and (q a c))', '(and)', EMPTY),
]

# Name, the text that is replaced, and its replacement, after which the script is the same.
SAME = [
    ('a type that is said again to be an object', 'box - thing thing', 'box - thing thing box - object'),
    ('a type that is said first to be an object', 'box - thing thing', 'box thing - object box - thing'),
    ('requirements that aren\'t used', ':typing)', ':typing :adl :fluents :ucpop)'),
    ('upper case', '(p ?x - box)', '(P ?X - BOX)'),
    ('comments, tabs and lines of another system', '(:constants c - box)', '; (\r\n\t(:constants c ; \u00e9)\r\n - box)'),
    ('a mark of byte order', '(define (domain d)', '\ufeff(define (domain d)'),
    ('a union of one type', 'a - box t', 'a - (either box) t'),
    ('an equality that always holds', '(and (p ?x))', '(and (= ?x ?x) (p ?x))'),
    ('an inequality that always holds', '(and (q a c))', '(and (not (= a c)) (q a c))'),
    ('a double negation', '(and (p ?x))', '(not (not (p ?x)))'),
    ('conjunctions in each other', '(and (p ?x))', '(and (and) () (and (and (p ?x))))'),
    ('a fact that isn\'t one', '(:init (p a))', '(:init (not (p c)) (p a))'),
]


def edited():
    for name, old, new, wanted in EDITS:
        if old not in DOMAIN + PROBLEM:
            raise ValueError(f'{name}: the text {old!r} stands in neither file')
        yield name, DOMAIN.replace(old, new, 1), PROBLEM.replace(old, new, 1), [], wanted + (PAGE if ': not taken: ' in wanted else '')


def same():
    """Name, and the two pairs of files that say the same."""
    for name, old, new in SAME:
        if old not in DOMAIN + PROBLEM:
            raise ValueError(f'{name}: the text {old!r} stands in neither file')
        yield name, (DOMAIN, PROBLEM), (DOMAIN.replace(old, new, 1), PROBLEM.replace(old, new, 1))


def many(form, count):
    return ' '.join(form.format(number) for number in range(count))


def row(name, domain, problem, wanted, options=()):
    """A row of a pair of files that pass a limit."""
    domain, problem = '(define (domain d)\n' + domain + ')\n', '(define (problem one) (:domain d)\n' + problem + ')\n'
    yield name, domain, problem, options, wanted + (LIMITS if re.match(r'\w+:\d', wanted) and ': limit ' in wanted and PAGE not in wanted else '')


def limits():
    """A pair of files for each limit that a translation can pass, each by one."""
    goal = '\n(:init) (:goal (p))'
    yield from row('limit 1', f'(:predicates (p) ({"q" * 65}))', goal,
                   f'd:2:19: limit 1, bytes of a name ({"q" * 65}): 65, and at most 64')
    yield from row('limit 2', '(:predicates (p))', f'(:objects {many("o{}", 257)})' + goal,
                   'p:2:1181: limit 2, objects: 257, and at most 256, and from version 2 on 1024', ['--script', '1'])
    yield from row('limit 3', f'(:predicates (p) {many("(q{})", 64)})', goal, 'd:2:387: limit 3, predicates: 65, and at most 64')
    yield from row('limit 3 by a type',
                   f'(:types t) (:predicates (p) {many("(q{})", 63)})\n(:action a :parameters (?x - t) :effect (p))',
                   '(:objects o - t)' + goal, 'd:1:17: limit 3, predicates, with those of types and conditions: 65, and at most 64')
    yield from row('limit 4', f'(:predicates (p) (q {many("?x{}", 7)}))', goal,
                   'd:2:19: limit 4, arguments of a predicate (q): 7, and at most 6')
    yield from row('limit 7', '(:predicates (p ?x))', f'(:objects o) (:init) (:goal (exists ({many("?x{}", 13)}) '
                   f'(and {many("(p ?x{})", 13)})))', 'p:2:22: limit 7, variables of a goal: 13, and at most 12')
    yield from row('limit 8', '(:predicates (p))' + many('(:action a{})', 33), goal,
                   'd:2:465: limit 8, operators: 33, and at most 32')
    yield from row('limit 9', f'(:predicates (p))\n(:action a :parameters ({many("?x{}", 9)}))', '(:objects o)' + goal,
                   'd:3:10: limit 9, parameters of an operator (a): 9, and at most 8')
    for part, word, form in (('precondition', 'pre', '(q{})'), ('effect', 'add', '(q{})'), ('effect', 'delete', '(not (q{}))')):
        yield from row(f'limit 10, {word}', f'(:predicates (p) {many("(q{})", 17)})\n(:action a :{part} (and {many(form, 17)}))',
                       goal, f'd:3:10: limit 10, atoms of a list ({word} of a): 17, and at most 16')


def limits_of_facts():
    """The like for facts, goals and nodes, and for two limits at once."""
    goal = '\n(:init) (:goal (p))'
    yield from row('limit 11', '(:predicates (p) (q ?x ?y ?z))', f'(:objects {many("o{}", 8)}) (:goal (p))\n(:init (p) '
                   + ' '.join(f'(q o{n // 64} o{n // 8 % 8} o{n % 8})' for n in range(512)) + ')',
                   'p:3:1: limit 11, different facts: 513, and at most 512, and from version 2 on 1024', ['--script', '1'])
    yield from row('limit 11 by unequal objects', '(:predicates (p))\n(:action a :parameters (?x ?y))',
                   f'(:objects {many("o{}", 24)})' + goal,
                   'p:3:1: limit 11, different facts, with those of types, complements and unequal objects: 552, and at most 512, '
                   'and from version 2 on 1024', ['--distinct', '--script', '1'])
    yield from row('limit 11 by complements', '(:predicates (p) (q ?x ?y))\n(:action a :parameters (?x ?y) :precondition (not (q ?x ?y)))',
                   f'(:objects {many("o{}", 24)})' + goal,
                   'p:3:1: limit 11, different facts, with those of types, complements and unequal objects: 576, and at most 512, '
                   'and from version 2 on 1024', ['--script', '1'])
    yield from row('limit 11 by very many pairs', '(:predicates (p))\n(:action a :parameters (?x ?y))', f'(:objects {many("o{}", 1001)})' + goal,
                   f'd:3:10: limit 11, different facts: 1002001 pairs of objects, and at most 1024{PAGE}', ['--distinct'])
    yield from row('limit 16 of version 3', '(:predicates (p))', goal, 'from-pddl: limit 16, nodes: 1000001, and 1 to 1000000 may be given',
                   ['--nodes', '1000001'])
    yield from row('limit 16 of weights', '(:predicates (p))', goal, 'from-pddl: limit 16, weight: 1001, and 0 to 1000 may be given',
                   ['--weight', '1001'])
    yield from row('limit 12', f'(:predicates {many("(q{})", 17)})', f'(:init) (:goal (and {many("(q{})", 17)}))',
                   'p:2:9: limit 12, atoms of a goal: 17, and at most 16')
    yield from row('limit 16', '(:predicates (p))', goal, 'from-pddl: limit 16, nodes: 50001, and 1 to 50000 may be given',
                   ['--script', '2', '--nodes', '50001'])
    yield from row('two limits', f'(:predicates (p) (q {many("?x{}", 7)}) (r {many("?x{}", 8)}))', goal,
                   'd:2:19: limit 4, arguments of a predicate (q): 7, and at most 6\n'
                   'd:2:51: limit 4, arguments of a predicate (r): 8, and at most 6')
    yield from row('no objects', '(:predicates (p))\n(:action a :parameters (?x))', goal,
                   'd:3:10: the problem has no objects, and a script can then have no parameters')


def rows():
    """Name, domain, problem, options and the messages of each row."""
    yield from edited()
    yield from limits()
    yield from limits_of_facts()
