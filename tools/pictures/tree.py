"""Draws a search as the tree of its nodes: a column for each number of moves, and in it each node behind the one that it goes on from."""
import html

from pictures.drawing import HEIGHT, PAD, WIDTH, columns, label, svg, width

MOST_OPEN = 60  # nodes that are seen at first, besides those that lead to the solved one
ENDS = {
    'solved': 'The last node is solved: its moves lead to the goal.',
    'exhausted': 'No list of the moves of this search reaches the goal.',
    'more': 'More nodes were found than were asked for: none of these is solved.',
    'shapelimit': 'A question met the limit of shapes, so that it isn\'t known which nodes come next.',
}


def text(words):
    """A text, escaped."""
    return html.escape(str(words))


def moved(node):
    """The last move of a node in words."""
    return f'{node.move} {node.entry}' if node.move else 'the start'


def said(tree, number, depth, lacking):
    """What is said of a node that is chosen: its moves, its needs, its stack, the top first, and what that lacks, if it is known."""
    moves = '; '.join(moved(tree.nodes[each]) for each in tree.lead(number)[1:]) or 'none'
    stack = ', '.join(reversed(tree.stack(number))) or 'empty'
    needs = f'Needs {tree.nodes[number].needs}.'
    if lacking and lacking[number] is not None:
        needs += f' The {"top" if tree.stack(number) else "goal"} lacks {", ".join(map(str, lacking[number])) or "no fact"}.'
    return f'Node {number}, after {depth} moves: {moves}. Stack, the top first: {stack}. {needs}'


def levels_open(depths):
    """How many levels are seen at first: as many as have few nodes, and at least one beside the start."""
    last, least = max(depths), min(1, max(depths))
    return max([least, *(level for level in range(last + 1) if sum(depth <= level for depth in depths) <= MOST_OPEN)])


def node(tree, number, depths, children, path, level, lacking):
    """A node and those behind it, which are folded where they are deeper than the level. It goes down by a list, and not by calls, since
    a search may be deep."""
    waiting = [(number, False)]
    while waiting:
        at, is_done = waiting.pop()
        if is_done:
            yield ('</ul>' if children[at] else '') + '</li>'
            continue
        own, behind = tree.nodes[at], children[at]
        kind = 'node solved' if path and at == path[-1] else 'node lead' if at in path else 'node'
        is_open = depths[at] < level or at in path[:-1]
        expanded = f' aria-expanded="{"true" if is_open else "false"}"' if behind else ''
        yield (f'<li role="treeitem" aria-level="{depths[at] + 1}" tabindex="{0 if at == number else -1}"{expanded} '
               f'data-level="{depths[at]}" data-said="{text(said(tree, at, depths[at], lacking))}">'
               f'<span class="{kind}"><b>{at}</b> {text(moved(own)).replace(",", ",<wbr>")} <small>needs {own.needs}</small>'
               + (f' <small class="folded">+{len(behind)}</small>' if behind else '') + '</span>'
               + (f'<ul role="group"{"" if is_open else " hidden"}>' if behind else ''))
        waiting += [(at, True), *((each, False) for each in reversed(behind))]


def wide(tree):
    """How wide a node is, in characters: as its longest word, within bounds."""
    return min(36, max(12, *(columns(moved(each)) + 6 for each in tree.nodes)))


def levels(tree):
    """The choice of how many levels are seen, where there are several."""
    depths = tree.depths()
    return (f'<p class="levels" hidden><label>levels shown of {text(tree.name)} <input type="range" min="0" max="{max(depths)}" '
            f'value="{levels_open(depths)}"></label></p>') if max(depths) else ''


def children_of(tree):
    """The nodes that go on from each node."""
    children = [[] for _ in tree.nodes]
    for number, each in enumerate(tree.nodes[1:], 1):
        children[each.before].append(number)
    return children


def picture(tree, lacking=()):
    """The tree, which is gone through by the keyboard, with what each node lacks, where that is known."""
    depths, path, children = tree.depths(), tree.path(), children_of(tree)
    return (f'<ul role="tree" aria-label="search {text(tree.name)}" style="--wide: {wide(tree)}ch">'
            f'{"".join(node(tree, 0, depths, children, path, levels_open(depths), lacking))}</ul>')


def rows(tree, children):
    """The row of each node: the first one behind it stands in its row, and each further one below all that is behind those before."""
    found, waiting, low = {}, [(0, True)], -1
    while waiting:
        at, is_first = waiting.pop()
        low += 0 if is_first and at else 1
        found[at] = low
        waiting += [(each, each == children[at][0]) for each in reversed(children[at])]
    return found


def drawing(tree):
    """The tree as an SVG that stands alone: nodes from left to right by their moves. Those that lead to the solved one have the colour of
    steps."""
    depths, path, children = tree.depths(), tree.path(), children_of(tree)
    lines, at = rows(tree, children), {}
    wide = max(width(line) for number, each in enumerate(tree.nodes) for line in drawn_lines(number, each)) + 2 * PAD
    for number in range(len(tree.nodes)):
        at[number] = (PAD + depths[number] * (wide + 4 * WIDTH), PAD + lines[number] * (2 * HEIGHT + 2 * PAD))
    parts = []
    for number, each in enumerate(tree.nodes):
        x, y = at[number]
        if number:
            left, top = at[each.before]
            middle = x - 2 * WIDTH
            parts.append(f'<path class="path" d="M{left + wide:.0f} {top + HEIGHT:.0f}H{middle:.0f}V{y + HEIGHT:.0f}H{x:.0f}"/>')
        parts.append(f'<g class="{"step" if number in path else "node"}"><rect class="box" x="{x:.0f}" y="{y:.0f}" width="{wide:.0f}" '
                     f'height="{2 * HEIGHT + 2:.0f}"/>')
        parts += [label(x + PAD, y + 14 + place * HEIGHT, line, 'move', 'start') for place, line in enumerate(drawn_lines(number, each))]
        parts.append('</g>')
    high = max(y for _, y in at.values()) + 3 * HEIGHT + 2 * PAD
    parts.append(label(PAD, high - PAD, tree.end, 'label', 'start'))
    return svg(PAD + max(depths) * (wide + 4 * WIDTH) + wide + PAD, high, f'search {tree.name}, {len(tree.nodes)} nodes', parts, [])


def drawn_lines(number, node):
    """The two lines of a node in a drawing."""
    return f'{number} {moved(node)}', f'needs {node.needs}'


def summary(tree):
    """How the search ends, and how many nodes each number of moves reaches."""
    depths = tree.depths()
    counts = ', '.join(f'{depth}: {depths.count(depth):,}' for depth in range(max(depths) + 1))
    return f'{ENDS[tree.end.split()[0]]} Nodes by the number of moves: {counts}.'
