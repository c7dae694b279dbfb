"""The sentence on a refusal: the most exact one that is found, with a hint where there is one."""
from refusals.hints import JOINING, PDDL, as_atom, meant, meant_word, no_form, no_token
from refusals.scripts import code_point, visible
from refusals.words import (ATOMS, BLOCKS, BUILDING_EDITS, COMMAND, DECLARATION, LIMITS, OPERATOR, OUT_OF_RANGE, SENTENCES, TABLE, WORDS,
                            WORDS_OF_THREE, WORDS_OF_TWO)

OPERATOR_LISTS = {word for word, row in WORDS.items() if row.places == (OPERATOR,)}
TABLE_LINES = {word for word, row in WORDS.items() if row.places == (TABLE,)}
ONCE = {'nodes', 'height', 'shapes', 'weight', 'building', 'robot'}


def bad_form(line, known, limit):
    if line.text.startswith('(') or line.bad == ':':
        return PDDL
    if line.bad:
        char = line.bad
        named = char if len(char) > 1 or '!' <= char <= '~' else code_point(char)
        named = f'{char}, {named},' if len(char) == 1 and char > '~' and char.isprintable() else visible(named)
        return f'{named} is no token: {no_token(char)}'
    if line.word not in WORDS:
        return None
    form = BUILDING_EDITS if line.word == 'disturb' and known.has_building else WORDS[line.word].form
    hint = no_form(line)
    return f'this line doesn\'t have the form of its word, {form}' + (f': {hint}' if hint else '')


def unknown_word(line, known, limit):
    if line.text.startswith('('):
        return PDDL
    if line.word in known.predicates:
        place = 'pre, delete or add' if known.block else 'fact, or plan and a name'
        return f'{line.word} is a predicate, and no word of the language: does {place} belong before {as_atom(line)}?'
    if line.word in WORDS_OF_TWO:
        return f'{line.word} is a word of version 2: begin the script by script 2'
    if line.word in WORDS_OF_THREE:
        return f'{line.word} is a word of version 3: begin the script by script 3'
    if line.word in ('-', '='):
        return f'{line.word} begins no line: a comment begins with #'
    near = meant_word(line.word)
    return f'{line.word} is no word of the language' + (f': did you mean {near}?' if near else '')


def unknown_in_atom(line, known, name, kind):
    """The sentence on a name that an atom has, as a predicate or an argument, and that isn't declared."""
    if kind == 'predicate':
        if name.lower() in JOINING:
            return f'{name} is no word between atoms: {JOINING[name.lower()]}'
        if name in known.objects or name in known.parameters:
            return f'{name} is no predicate, but stands where an atom begins: P({name}) is an atom of a predicate P'
        declared = f'the predicate {name} isn\'t declared by an earlier line'
        other = 'a building has only the predicates that come with it' if known.has_building else f'declare it, as by predicate {name} 1'
        return declared + (meant(name, known.predicates) or f': {other}')
    in_block = line.word in OPERATOR_LISTS
    declared = f'{name} isn\'t declared by an earlier line as an object' + (' or a parameter of the operator' if in_block else '')
    near = meant(name, [*known.parameters, *known.objects])
    if near:
        return declared + near
    if in_block:
        if known.parameters:
            return f'{declared}: take the parameter {" or ".join(known.parameters)}, or declare the object before'
        return f'{declared}: make it a parameter, as {known.operator}({name}), or declare the object before'
    return declared + ('' if known.has_building else f': declare it by object {name}, or ask for any by ?{name}' if line.word == 'plan'
                       else f': declare it by object {name}')


def things_wanted(line):
    """The names of a building's things in the line, each with the kind that is wanted."""
    texts = [text for kind, text in line.tokens]
    if line.word in ('door', 'box'):
        return [(name, 'room') for name in texts[2:4 if line.word == 'door' else 3]]
    if line.word == 'robot':
        return [(texts[1], 'room')]
    wanted, place = [], 3
    while line.word == 'disturb' and place < len(texts) and texts[place] in ('robot', 'box', 'door'):
        kind = texts[place]
        wanted += [(texts[place + 1], 'room' if kind == 'robot' else kind)]
        wanted += [(texts[place + 2], 'room')] if kind == 'box' else []
        place += 2 if kind == 'robot' else 3
    return wanted


def unknown_result(line, known):
    """The sentence on the first result that isn't declared, in a line that names some."""
    places = {'learn': (3,), 'edit': (3,), 'duo': (1, 2)}.get(line.word, (1,))
    names, what = (known.plans, 'plan') if line.word == 'learn' else (known.results, 'result')
    name = next((name for name in (line.tokens[place][1] for place in places) if name not in names), None)
    if name is None:
        return None
    listed = f': take {" or ".join(list(names)[:8])}' if names else ': a plan line before gives one'
    if name in known.untabled:
        kind, number = known.untabled[name]
        return f'{name} is the name of the {kind} of line {number}, which has no table{listed}'
    return f'{name} is no {what} of an earlier line' + (meant(name, names) or listed)


def unknown_name(line, known, limit):
    if line.word in ATOMS and not (line.word == 'disturb' and known.has_building):
        for predicate, arguments in line.atoms():
            if predicate not in known.predicates:
                return unknown_in_atom(line, known, predicate, 'predicate')
            for kind, text in arguments:
                if kind == 'name' and text not in known.objects and text not in known.parameters:
                    return unknown_in_atom(line, known, text, 'argument')
    if line.word in ('learn', 'show', 'run', 'save', 'certify', 'duo', 'edit'):
        said = unknown_result(line, known)
        if said:
            return said
    if line.word == 'step' and line.names[0] not in known.operators:
        return f'the operator {line.names[0]} isn\'t declared by an earlier line' + meant(line.names[0], known.operators)
    if line.word == 'param':
        if line.names[0] not in known.sorts:
            return f'{line.names[0]} is no sort of an earlier line' + meant(line.names[0], known.sorts)
        for name in line.names[1:]:
            if name not in known.parameters:
                return f'{name} is no parameter of the operator {known.operator}' + meant(name, known.parameters)
    for name, kind in things_wanted(line):
        if known.things.get(name) != kind:
            return f'{name} is no {kind} of an earlier line' + meant(name, [thing for thing in known.things if known.things[thing] == kind])
    for name in [text for _, text in line.tokens[4::3]] if line.word == 'run' else ():
        if name not in known.objects:
            return f'{name} isn\'t declared by an earlier line as an object' + meant(name, known.objects)
    return None


def twice(names):
    """The first of some names that stands there before."""
    return next((name for place, name in enumerate(names) if name in names[:place]), None)


def duplicate_objects(names, known):
    for place, name in enumerate(names):
        if name in known.objects:
            return f'{name} is declared already by line {known.objects[name]}: choose another name, or leave it out'
        if name in names[:place]:
            return f'{name} is declared already by this line: choose another name, or leave it out'
    return None


def duplicate(line, known, limit):
    names, word = line.names, line.word
    kinds = {'object': known.objects, 'predicate': known.predicates,
             **{giver: {**known.results, **{name: number for name, (_, number) in known.untabled.items()}}
                for giver in ('plan', 'learn', 'edit', 'table', 'pursue', 'tree')},
             **{thing: known.objects for thing in ('room', 'door', 'box')}}
    if word == 'operator':
        if names[0] in known.operators:
            return f'the operator {names[0]} is declared already by line {known.operators[names[0]]}: give one of them another name'
        taken = next((name for name in names[1:] if name in known.objects), None)
        if taken:
            return f'the parameter {taken} has the name of an object of line {known.objects[taken]}: give it another name'
        return f'the parameter {twice(names[1:])} stands twice: give one of them another name'
    if word == 'run':
        return f'the parameter {twice(names[1::2])} is bound twice'
    if word == 'param':
        given = next((name for name in names[1:] if name in known.sorted), None)
        if given:
            return f'the parameter {given} has a sort already, by line {known.sorted[given]}: leave it out'
        return f'the parameter {twice(names[1:])} stands twice: leave it out once'
    if word == 'sort':
        if names[0] in known.sorts:
            return f'the sort {names[0]} is declared already by line {known.sorts[names[0]]}: give one of them another name'
        return duplicate_objects(names[1:], known)
    if word in ONCE and word in known.once:
        return f'a second {word}, after that of line {known.once[word]}: leave one of them out'
    for place, name in enumerate(names if word == 'object' else names[:1]):
        if name in kinds.get(word, ()):
            return f'{name} is declared already by line {kinds[word][name]}: choose another name, or leave it out'
        if name in names[:place]:
            return f'{name} is declared already by this line: choose another name, or leave it out'
    if word == 'door' and names[1] == names[2]:
        return f'the door {names[0]} has {names[1]} on both sides: a door joins two rooms'
    return None


def arity(line, known, limit):
    for predicate, arguments in line.atoms():
        wanted = known.arities.get(predicate, len(arguments))
        if len(arguments) != wanted:
            plural = '' if len(arguments) == 1 else 's'
            here = f'{predicate} has {len(arguments)} argument{plural} here, and {wanted} '
            if known.has_building:
                return here + 'in every building'
            return here + f'where line {known.predicates[predicate]} declares it: change one of them'
    return None


def unbound(line, known, limit):
    if not line.variables:
        return '$ stands outside a delete list, where it means any object: name an object'
    if line.word in TABLE_LINES:
        return 'the parameters of a table are ?p1, ?p2 and so on, as many as its block says' + (
            ', and the variables of its goal ?g1 to ?g12' if line.word == 'goal' else '')
    name = line.variables[0]
    instead = f'in an operator a parameter is written {name[1:]}' if line.word in OPERATOR_LISTS else 'name an object'
    return f'the variable {name} stands outside a goal and an axiom: {instead}'


def passed(line, known, limit):
    if limit == OUT_OF_RANGE and line.word in WORDS and WORDS[line.word].range:
        return f'limit {limit} is passed: {WORDS[line.word].range}'
    return f'limit {limit} is passed: {LIMITS[limit]}' if limit in LIMITS else None


def order(line, known, limit):
    word = line.word
    if word == 'script' and known.once:
        return 'script may only be the first line'
    places = WORDS[word].places
    if known.block:
        opener, number = known.block
        if BLOCKS[opener] not in places:
            return (f'{word} stands inside the {opener} block that line {number} opens, and no end is between them: '
                    'close the block by a line end')
        if opener == 'table':
            return 'the lines of a table block stand in this order: step lines, one goal, proof lines, end'
        if word == 'end':
            return f'the building that line {number} opens has no line robot: say in it where the robot is, as robot R1'
    elif COMMAND not in places and DECLARATION not in places and word != 'script':
        openers = [opener for opener, inside in BLOCKS.items() if inside in places]
        opens = ' or '.join(filter(None, (', '.join(openers[:-1]), openers[-1])))
        return f'{word} stands outside a block: a line {opens} opens one, and end closes it'
    if COMMAND not in places and known.command:
        return f'a declaration stands after the command of line {known.command}: move it before that'
    if not known.objects and (word == 'operator' or line.variables or word == 'run' and any(text == '=' for _, text in line.tokens)):
        return 'a variable or parameter stands before any object is declared: declare the objects first'
    if word == 'building' or known.has_building:
        return 'a script has either a building or declarations of its own: leave one of them out'
    return None


# By code: what finds a more exact sentence for a line, where one is found.
FINDERS = {2: bad_form, 3: unknown_word, 4: unknown_name, 5: duplicate, 6: arity, 7: unbound, 8: passed, 9: order}


def sentence(code, limit, line, known):
    """The most exact sentence that is found for a refused line."""
    try:
        said = FINDERS[code](line, known, limit) if code in FINDERS else None
    except (IndexError, KeyError, TypeError, ValueError):
        said = None
    return said or SENTENCES.get(code, 'refused')
