"""The tables of the language: its words, codes and limits. A new word, code or limit is a row here."""
from typing import NamedTuple

HEAD, DECLARATION, COMMAND, OPERATOR, BUILDING, TABLE = 'head', 'declaration', 'command', 'operator', 'building', 'table'


class Word(NamedTuple):
    """A word: the form of its line, where the line may stand (one or two of the names above), and the range of its number."""
    form: str
    places: tuple
    range: str = ''


WORDS = {
    'script': Word('script 1', (HEAD,), 'the version may be 1, 2 or 3'),
    'object': Word('object NAME ..', (DECLARATION,)),
    'predicate': Word('predicate NAME NUMBER', (DECLARATION,)),
    'axiom': Word('axiom LITERAL .., each an ATOM or ~ATOM', (DECLARATION,)),
    'operator': Word('operator NAME, or operator NAME(PARAMETER,..)', (DECLARATION,)),
    'pre': Word('pre ATOM ..', (OPERATOR,)),
    'delete': Word('delete ATOM ..', (OPERATOR,)),
    'add': Word('add ATOM ..', (OPERATOR,)),
    'end': Word('end', (OPERATOR, BUILDING, TABLE)),
    'building': Word('building', (DECLARATION,)),
    'room': Word('room NAME', (BUILDING,)),
    'door': Word('door NAME ROOM ROOM open, or closed', (BUILDING,)),
    'box': Word('box NAME ROOM', (BUILDING,)),
    'robot': Word('robot ROOM', (BUILDING,)),
    'fact': Word('fact ATOM ..', (DECLARATION,)),
    'height': Word('height NUMBER', (DECLARATION,), 'height may be from 1 to 8'),
    'nodes': Word('nodes NUMBER', (DECLARATION,), 'nodes may be from 1 to 50,000, or in version 3 to 1,000,000'),
    'shapes': Word('shapes NUMBER', (DECLARATION,), 'shapes may be from 2 to 70,000'),
    'weight': Word('weight NUMBER', (DECLARATION,), 'weight may be from 0 to 1,000'),
    'plan': Word('plan NAME ATOM ..', (COMMAND,)),
    'learn': Word('learn NAME from NAME', (COMMAND,)),
    'show': Word('show NAME', (COMMAND,)),
    'disturb': Word('disturb NUMBER before EDIT .., or between, each edit +ATOM or -ATOM', (COMMAND,), 'the turn may be from 1 to 9,999'),
    'run': Word('run NAME pK=OBJECT ..', (COMMAND,)),
    'facts': Word('facts', (COMMAND,)),
    'sort': Word('sort NAME OBJECT ..', (DECLARATION,)),
    'param': Word('param SORT PARAMETER ..', (OPERATOR,)),
    'duo': Word('duo NAME NAME NUMBER .., each number 1 or 2', (COMMAND,), 'a number of a duo line may be 1 or 2'),
    'table': Word('table NAME NUMBER', (DECLARATION,), 'the numbers of a table block may be up to 9,999'),
    'step': Word('step OPERATOR, or step OPERATOR(ARGUMENT,..)', (TABLE,)),
    'goal': Word('goal ATOM ..', (TABLE,)),
    'proof': Word('proof PART .., each f NUMBER NUMBER ATOM, a NUMBER, or s NUMBER NUMBER NUMBER (TERM,..)', (TABLE,),
                  'the numbers of a table block may be up to 9,999'),
    'save': Word('save NAME', (COMMAND,)),
    'certify': Word('certify NAME', (COMMAND,)),
    'edit': Word('edit NAME from NAME NUMBER STEP=PLACE ..', (COMMAND,), 'the numbers of an edit line may be up to 9,999'),
    'pursue': Word('pursue NAME ATOM ..', (COMMAND,)),
    'tree': Word('tree NAME NUMBER ATOM ..', (COMMAND,), 'the number of a tree line may be from 1 to 1,000'),
}
# The words that version 2 is the first to have, and version 3.
WORDS_OF_TWO = ('sort', 'param', 'duo', 'table', 'step', 'goal', 'proof', 'save', 'certify', 'edit', 'pursue')
WORDS_OF_THREE = ('weight', 'tree')
BUILDING_EDITS = 'disturb NUMBER before EDIT .., or between, each edit robot ROOM, box BOX ROOM, or door DOOR open, or closed'
# The words that open a block, with the place of the lines inside.
BLOCKS = {'operator': OPERATOR, 'building': BUILDING, 'table': TABLE}
# The words whose lines have atoms, with the number of tokens before these.
ATOMS = {'pre': 1, 'delete': 1, 'add': 1, 'fact': 1, 'axiom': 1, 'plan': 2, 'disturb': 3, 'goal': 1, 'pursue': 2, 'tree': 3}
# The predicates that a building gives to its script, with their numbers of arguments.
BUILDING_PREDICATES = {'INROOM': 2, 'NEXTTO': 2, 'CONNECTS': 3, 'OPENED': 1, 'CLOSED': 1, 'ROOM': 1, 'DOOR': 1, 'BOX': 1}

# By code: what is said where nothing more exact is found.
SENTENCES = {
    1: 'a byte of this line belongs to no character: save the script as UTF-8 text',
    2: 'this line doesn\'t have the form of its word',
    3: 'this line begins with no word of the language',
    4: 'a name isn\'t declared by an earlier line',
    5: 'a name is declared a second time',
    6: 'an atom has another number of arguments than its predicate',
    7: 'a variable stands outside a goal and an axiom, or $ outside a delete list',
    8: 'a limit is passed',
    9: 'this line may not stand here',
    10: 'the block that opens here is closed by no end: write a line end after its last line',
    12: 'the lines of this block make no table: a goal has to stand in it, and one line proof for each step and one for the goal, '
        'each with proofs of what its row needs',
    13: 'by the lines before it this is no line of a certificate: docs/CERTIFICATES.md shows how each is written',
}
# By limit: what passes it. A number that is out of its range (16) has the sentence of its word.
OUT_OF_RANGE = 16
LIMITS = {
    1: 'a name has more than 64 bytes', 2: 'more than 256 objects, or from version 2 on more than 1,024', 3: 'more than 64 predicates',
    4: 'a predicate of more than 6 arguments', 5: 'more than 64 axioms', 6: 'an axiom of more than 6 literals',
    7: 'more than 12 variables in a goal or an axiom', 8: 'more than 32 operators', 9: 'an operator of more than 8 parameters',
    10: 'a list of an operator has more than 16 atoms', 11: 'more than 512 different facts, or from version 2 on more than 1,024',
    12: 'a goal of more than 16 atoms', 13: 'more than 512 commands, or from version 2 on more than 1,024',
    14: 'more than 64 disturb lines since the last run', 15: 'a disturbance of more than 16 edits',
    OUT_OF_RANGE: 'a number is out of its range', 17: 'more than 32 sorts', 18: 'more than 32 tables', 19: 'more than 64 steps in a table',
    20: 'a proof higher than 56',
    21: 'more than 16 pairs in an edit line', 22: 'more than 256 numbers in a duo line',
}
# Words of other languages at the head of a line, with what this one has for them.
OTHER_WORDS = {
    'action': 'operator', 'objects': 'object', 'constants': 'object', 'constant': 'object', 'types': 'predicate', 'type': 'predicate',
    'predicates': 'predicate', 'parameters': 'operator', 'precondition': 'pre', 'preconditions': 'pre', 'effect': 'add',
    'effects': 'add', 'remove': 'delete', 'init': 'fact', 'initial': 'fact', 'goal': 'plan', 'solve': 'plan', 'find': 'plan',
    'execute': 'run', 'print': 'show', 'rule': 'axiom', 'domain': 'predicate', 'problem': 'plan',
}
