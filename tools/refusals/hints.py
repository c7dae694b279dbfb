"""Hints: what was meant, and what to write instead."""
import difflib
import re
import unicodedata

from refusals.scripts import code_point, visible
from refusals.words import ATOMS, OTHER_WORDS, WORDS

# Letters of other alphabets that look like these Latin ones.
LOOKALIKES = str.maketrans('АВЕЅІЈКМНОРСТУХаеѕіјорсухΑΒΕΖΗΙΚΜΝΟΡΤΥΧο', 'ABESIJKMHOPCTYXaesijopcyxABEZHIKMNOPTYXo')
PDDL = 'this looks like PDDL: tools/from-pddl DOMAIN PROBLEM makes a script of it'
OPPOSITE = 'declare a predicate for the opposite, which operators add where they delete the other'
COMMENT = 'a comment begins with #'
# By a text that is no token: what to write instead.
TOKENS = {
    ';': f'{COMMENT}, and a line needs no sign at its end', '/': COMMENT, '%': COMMENT,
    '.': 'a line needs no sign at its end', '!': f'only an axiom negates, by ~; elsewhere {OPPOSITE}',
    '&': 'atoms follow one another without it', '|': 'only an axiom has alternatives, with blanks between them',
    '[': 'parentheses are round', ']': 'parentheses are round', '{': 'parentheses are round', '}': 'parentheses are round',
    '?': 'a variable is ? directly followed by a name', '*': 'names have letters, digits and _', '@': 'names have letters, digits and _',
    '<': 'numbers and objects aren\'t compared', '>': 'numbers and objects aren\'t compared',
}
TOKENS['¬'] = TOKENS['!']
TOKENS['∧'] = TOKENS['&']
TOKENS['∨'] = TOKENS['|']
QUOTES = '"\'`´«»“”„‘’‚‹›'
# For lines whose form is wrong: their words (none: all), a pattern of their text, and what to write instead. The first that fits counts.
LISTS = set(ATOMS) - {'disturb'}
FORMS = [
    (set(), r'^\s*\(', PDDL),
    ({'operator', 'pre', 'delete', 'add'}, r'\?\w', 'in an operator a parameter is written without ?'),
    ({'operator', 'object', 'predicate', 'room', 'door', 'box'}, r'\w\s+-\s+\w',
     'there are no types, so ask by a predicate, as pre BLOCK(x) with fact BLOCK(a)'),
    (set(WORDS) - {'disturb'}, r'\w-\w|[\w)]-', 'a name has no -, so write _'),
    ({'pre'}, r'~', f'a precondition asks only for what is true: {OPPOSITE}'),
    ({'add', 'fact', 'delete'}, r'~', 'leave the ~ out: what isn\'t listed as a fact isn\'t one, and delete makes untrue'),
    ({'plan', 'pursue', 'tree'}, r'~', f'a goal asks only for what is true: {OPPOSITE}'),
    ({'axiom'}, r'-', 'a literal is negated by ~'),
    ({'axiom', 'pre', 'delete', 'add', 'fact', 'plan'}, r'\(\s*\)', 'an atom without arguments has no parentheses'),
    ({'operator'}, r'\(\s*\)', 'an operator without parameters has no parentheses'),
    ({'object'}, r',', 'leave the comma out, since names have blanks between'),
    ({'operator'}, r'\([^)]*\w\s+\w', 'parameters have commas between'),
    ({'predicate'}, r'\(', 'a predicate is declared with its number of arguments, as predicate P 2'),
    ({'plan'}, r'^plan\s+\w+\s*\(', 'the name of the plan is missing, as in plan N P(a)'),
    ({'tree'}, r'^tree\s+(\d|[^\W\d]\w*\s+\D)', 'after its name stands how many nodes are listed at most, as in tree T 100 P(a)'),
    (LISTS, r'\([^()]*\([^()]', 'an argument is a name, and has no arguments itself'),
    (LISTS, r'\([^)]*[\w$]\s+[\w?$]', 'arguments have commas between'),
    (LISTS, r'\([^()]*$', 'a ( isn\'t closed'),
    (LISTS, r',\s*$|^[^(]*,|\)[^(]*,', 'leave the comma out, since atoms have blanks between'),
    (LISTS, r'[=<>]', 'objects aren\'t compared: a predicate says which are unequal, as NE of examples/sussman.planex'),
    (LISTS - {'tree'} | {'object'}, r'[(\s]\d', 'a name begins with a letter or _'),
    ({'proof'}, r'\bs\b', 'after a proof that begins with s stand as many proofs as its last number says'),
    ({'edit'}, r'^\s*edit\s+\w+\s+from\b', 'after the names stand a number of steps, and pairs of a step and one of its adds, as 2 1=0'),
    ({'learn', 'edit'}, r'', 'the word from stands between the two names'),
    ({'end', 'building', 'facts'}, r'', 'nothing may follow the word'),
    ({'run'}, r'=', 'a parameter is p and a number from 1, and learned tables show which there are'),
    (set(), r'^\w+\s*$', 'the rest of the line is missing'),
]
# By a word in the place of an atom: what to write instead.
JOINING = {
    'and': 'atoms follow one another without it', 'or': 'only an axiom has alternatives, with blanks between them',
    'not': f'only an axiom negates, by ~; elsewhere {OPPOSITE}',
}


def no_token(bad):
    """The hint on a text that begins no token."""
    if bad in TOKENS:
        return TOKENS[bad]
    if bad in QUOTES:
        return 'names have no quotes'
    if bad[0].isdigit():
        return 'put a blank after the number, or begin the name with a letter'
    if unicodedata.category(bad) == 'Zs' or bad in '\v\f\u200b\u2060\ufeff':
        return 'put an ordinary blank in its place'
    if unicodedata.category(bad) == 'Pd':
        return 'a name has none, so write _'
    if not bad.isprintable():
        return 'take it out'
    return 'names have letters, digits and _'


def no_form(line):
    """The hint on a line without the form of its word, if one is found."""
    for words, pattern, hint in FORMS:
        if (not words or line.word in words) and re.search(pattern, line.text):
            return hint
    return None


def without_digits(name):
    return re.sub(r'\d+', '', name).lower()


def nearest(name, names):
    """The one of some names that was meant, if one is near."""
    low = {known.lower(): known for known in reversed(list(names))}
    if name.lower() in low:
        return low[name.lower()]
    for near in difflib.get_close_matches(name.lower(), low, 3, 0.7):
        # of names that differ only in their numbers none was meant
        if without_digits(near) != without_digits(name):
            return low[near]
    return None


def meant(name, names):
    """What is said of the nearest of some names, with a colon before, or nothing."""
    for known in names:
        if known != name and known.translate(LOOKALIKES) == name.translate(LOOKALIKES):
            place = next(place for place, (one, other) in enumerate(zip(name, known), 1) if one != other)
            return f': it looks like {known}, but character {place} is {code_point(name[place - 1])}, not {code_point(known[place - 1])}'
        if known != name and unicodedata.normalize('NFC', known) == unicodedata.normalize('NFC', name):
            return f': it looks like {known}, but an accented letter is one character in one of them and two in the other'
    near = nearest(name, names)
    return f': did you mean {near}?' if near else ''


def meant_word(word):
    """The word of the language that was meant by another one, if one is near."""
    low = word.lower()
    begun = [known for known in WORDS if len(low) > 1 and known.startswith(low)]
    return OTHER_WORDS.get(low) or (begun[0] if begun else nearest(word, WORDS))


def is_no_text(lines):
    """Are these the lines of a file that isn't text at all, or text of another form?"""
    return any(b'\0' in line for line in lines)


def no_text(lines, at):
    """What a script that isn't UTF-8 seems to be: its lines as bytes, and the first that is no text."""
    if lines[0][:2] in (b'\xff\xfe', b'\xfe\xff'):
        return 'the script seems to be UTF-16: save it as UTF-8 text'
    if is_no_text(lines):
        return 'the script seems to be no text, but a file of another kind: give a script that is UTF-8 text'
    try:
        lines[at - 1].decode()
    except UnicodeDecodeError as error:
        bad = lines[at - 1][error.start]
        return f'the byte {bad:02X} of this line belongs to no character: save the script as UTF-8 text, not as Latin-1 or the like'
    return None


def as_atom(line):
    """A line that begins with an atom, as it is shown in a hint."""
    return visible(line.text if len(line.text) <= 40 else line.text[:37] + '...')
