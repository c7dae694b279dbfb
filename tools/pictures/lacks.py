"""What the nodes of a search lack: which atoms that the top of the stack needs, or the goal where it is empty, are no facts there."""
from pictures.script import tokens
from planex import read_atom, read_atoms


def read_entry(entry):
    """The name of the table of an entry, which an operator's instance hasn't got, and its steps."""
    words = entry.split(' ')
    return words[0] if len(words) > 1 else None, [read_atom(word) for word in words[len(words) > 1:]]


def values_of(table, steps):
    """The objects that the steps give to a table's parameters."""
    return {parameter: value for row, step in zip(table.rows, steps) for parameter, value in zip(row.heads[0].arguments, step.arguments)
            if parameter in table.parameters()}


def is_fact(atom, facts):
    """Is an instance of the atom a fact? A variable, `?x`, is one object in all its places."""
    def fits(fact):
        values = {}
        return all(values.setdefault(own, other) == other if own.startswith('?') else own == other
                   for own, other in zip(atom.arguments, fact.arguments))
    return atom in facts or any(fact.predicate == atom.predicate and fits(fact) for fact in facts)


def lacks_of(script, tables, entry, facts):
    """What an entry lacks in the facts, or None where that isn't known: of a learned table the rows are needed, and they have to name no
    parameter that isn't one of the steps that were taken."""
    name, steps = read_entry(entry)
    if name is None:
        return [atom for atom in script.needed_by(steps[0]) if atom not in facts]
    if name not in tables:
        return None
    found, values = [], values_of(tables[name], steps)
    for row, step in zip(tables[name].rows, steps):
        needed = [mark.atom.under(values) for mark in row.marks if mark.column == 0]
        if any(argument in tables[name].parameters() for atom in needed for argument in atom.arguments):
            return None
        found += [atom for atom in needed if atom not in facts]
        facts = script.change_of(step)._replace(add=()).of(facts)
    return found


def is_of(script, tree):
    """Are all steps of the nodes instances of the script's operators?"""
    return all(step and script.has_step(step) for node in tree.nodes if node.entry for step in read_entry(node.entry)[1])


def nodes_of(script, tables, facts, command, tree):
    """What each node of a search from these facts lacks, in the order of the nodes, or None where that isn't known."""
    wanted, states, found = read_atoms(tokens(command.text)[3:]), [], []
    for number, node in enumerate(tree.nodes):
        states.append(states[node.before] if number else facts)
        for step in read_entry(node.entry)[1] if node.move == 'apply' else ():
            states[-1] = script.change_of(step).of(states[-1])
        stack = tree.stack(number)
        found.append(lacks_of(script, tables, stack[-1], states[-1]) if stack else
                     [atom for atom in wanted if not is_fact(atom, states[-1])])
    return found
