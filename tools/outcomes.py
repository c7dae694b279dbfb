"""What came of the scripts of examples/, by their recorded transcripts, for tools/documents."""
import pathlib
import re

TOP = pathlib.Path(__file__).resolve().parent.parent


def outcome(out, result):
    """How a table tells of a reply."""
    if not out.exists():
        return 'not tried'
    for line in out.read_text().splitlines():
        words = line.split()
        if words[0] == 'plan' and words[1] == result:
            return f'{words[2]} steps, {words[4]} moves'
        if words[0] == 'nodelimit' and words[1] == result:
            return f'nodelimit, {int(words[2]):,} nodes'
        if words[0] == 'shapelimit' and words[1] == result:
            return f'shapelimit, {int(words[2]):,} shapes'
        if words[:2] == ['exhausted', result]:
            return 'exhausted'
    return None


def row(name, result):
    """The row of docs/SOLVES.md for a result of a script of examples/."""
    script = TOP / 'examples' / f'{name}.planex'
    lines = [line.split() for line in script.read_text().splitlines() if line and not line.startswith('#')]
    objects = sum(len(line) - 1 for line in lines if line[0] == 'object')
    facts = len({atom for line in lines if line[0] == 'fact' for atom in line[1:]})
    operators = sum(line[0] == 'operator' for line in lines)
    if ['building'] in lines:
        rooms, doors, boxes = (sum(line[0] == word for line in lines) for word in ('room', 'door', 'box'))
        # the robot, which is in a room; of a door what it is, whether it is open, and its two rooms twice; of a box what it is and where
        objects, operators, facts = 1 + rooms + doors + boxes, 7, 1 + rooms + 4 * doors + 2 * boxes
    return (f'| [{name}](../examples/{name}.planex) | {result} | {objects} | {operators} | {facts} '
            f'| {outcome(script.with_suffix(".out"), result)} |')


def rows(lines):
    """The table of docs/SOLVES.md with each of its results told anew."""
    for line in filter(None, lines):
        found = re.match(r'\| \[([\w-]+)\]\(\.\./examples/[\w-]+\.planex\) \| (\w+) \|', line)
        yield row(*found.groups()) if found else line


CLASSICS = TOP / 'examples' / 'classics'


def measured_classics():
    """What answers each script with each weight, and two numbers that were measured of it."""
    measured = [line.split() for line in (CLASSICS / 'measured.txt').read_text().splitlines()]
    numbers = {(name, weight): (first, second) for name, weight, first, second in measured}
    return dict(re.findall(r'^(\S+ weight \d+): (.*)$', (CLASSICS / 'weights.txt').read_text(), re.M)), numbers


def weights(_):
    """The table of docs/TUTORIAL.md: how long some plans are by the weight."""
    told, numbers = measured_classics()
    yield '| | `weight 0` | `weight 3` | `weight 16` | `weight 1000` | fewest steps |'
    yield '|---|---|---|---|---|---|'
    for name, title in ('sussman', 'three blocks'), ('blocks', 'four blocks'), ('rooms4', 'four rooms'), ('packages', 'two packages'):
        cells = [with_weight(told[f'{name} weight {weight}'], *numbers[name, str(weight)]).rpartition(',')[0] for weight in (0, 3, 16, 1000)]
        yield f'| [{title}](../examples/classics/{name}.planex) | {" | ".join(cells)} | {numbers[name, "blind"][0]} |'


def classics(_):
    """The table of the classics in docs/SOLVES.md, by what answers with each weight and by what was measured."""
    told, numbers = measured_classics()
    yield '| Script | Known from | `weight 0` | `weight 16` | `weight 1000` | Blind |'
    yield '|---|---|---|---|---|---|'
    for script in sorted(CLASSICS.glob('*.planex')):
        name = script.stem
        cells = [with_weight(told[f'{name} weight {weight}'], *numbers[name, str(weight)]) for weight in (0, 16, 1000)]
        steps, states = numbers[name, 'blind']
        yield (f'| [{name}](../examples/classics/{name}.planex) | {known_from(script)} | {" | ".join(cells[:2])} '
               f'| {"the same" if told[f"{name} weight 16"] == told[f"{name} weight 1000"] and numbers[name, "16"][0] == numbers[name, "1000"][0] else cells[2]} '
               f'| {steps} steps, {int(states):,} states |')


def with_weight(told, nodes, took):
    """A cell of the table of the classics."""
    words = told.split()
    return f'{words[2]} steps, {int(nodes):,} nodes, {took} ms' if words[0] == 'plan' else f'{words[0]}, {took} ms'


def known_from(script):
    """The source that the comment at the head of a script names in parentheses."""
    comment = ' '.join(line[2:] for line in script.read_text().splitlines() if line.startswith('# '))
    found = re.search(r'\(([^()]*(?:\d{4}|competition))\)', comment)
    return found.group(1) if found else ''


PDDL = TOP / 'examples' / 'pddl'


def pddl_rows(lines):
    """The table of docs/PDDL.md, with what comes out of each problem, what was measured of it, and what comes out with --distinct told anew."""
    measured = {name: (nodes, took) for name, nodes, took in (line.split() for line in (PDDL / 'measured.txt').read_text().splitlines())}
    for line in filter(None, lines):
        cells = line.strip('|').split('|')
        if found := re.fullmatch(r' `(\w+/[\w-]+)` ', cells[1]):
            stem = PDDL / found.group(1)
            plain, distinct = (came_of(stem.with_suffix(suffix)) for suffix in ('.out', '.distinct.out'))
            remark = cells[3].strip().partition(';')[2]
            nodes, took = measured[found.group(1)]
            cells[3] = f' {plain}{";" if remark else ""}{remark} '
            cells[4], cells[5] = f' {int(nodes):,} ' if nodes.isdigit() else ' ', f' {took} '
            if distinct:
                cells[6] = f' {"the same" if distinct == plain else distinct} '
        yield f'|{"|".join(cells)}|'


def came_of(out):
    """The same of a problem in PDDL; nothing where that isn't recorded."""
    return re.sub(', [0-9]* moves|, 1,000,000 nodes', '', (outcome(out, 'solution') or '') if out.exists() else '')
