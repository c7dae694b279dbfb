"""Draws triangle tables: columns from 0, the steps on the diagonal, each mark in its cell, the goal's row last."""
import html
import re

from pictures.drawing import HEIGHT, PAD, WIDTH, folded, label, svg, width


def coloured(text, parameters):
    """A text with parameters in one colour each."""
    parts = re.split(r'([(),])', text)
    return ''.join(f'<tspan class="{part}">{part}</tspan>' if part.strip() in parameters else html.escape(part) for part in parts)


def parameters_of(table, objects):
    """The names of a table's parameters. One that an object has too isn't told apart from it."""
    return [name for name in table.parameters() if name not in objects]


def grid(table):
    """The atoms of each cell by row and column: marks, and on the diagonal the steps and the goal."""
    cells = {}
    for number, row in enumerate(table.rows, 1):
        for column, atom in row.marks:
            cells.setdefault((number, column), []).append(str(atom))
        cells[number, number] = [str(atom) for atom in row.heads]
    return cells


def told(row, column, last):
    """What a cell means, in words."""
    if row == column:
        return 'the goal' if row == last else f'step {row}'
    return f'{"true at the start" if column == 0 else f"added by step {column}"}, for {"the goal" if row == last else f"step {row}"}'


def cell(atoms, row, column, last, place, parameters):
    """A cell with its atoms."""
    x, y, wide, high = place
    yield f'<g class="{"step" if row == column else "marks"}" data-row="{row}" data-column="{column}">'
    yield f'<rect class="box" x="{x:.0f}" y="{y:.0f}" width="{wide:.0f}" height="{high:.0f}"/>'
    line = 0
    for atom in atoms:
        title = f'<title>{html.escape(f"{atom}: {told(row, column, last)}")}</title>'
        yield f'<text>{title}'
        for text in folded(atom):
            indent = len(text) - len(text.lstrip())
            yield (f'<tspan x="{x + PAD + indent * WIDTH:.0f}" y="{y + PAD + 13 + line * HEIGHT:.0f}">'
                   f'{coloured(text.lstrip(), parameters)}</tspan>')
            line += 1
        yield '</text>'
    yield '</g>'


def places(cells, last):
    """Where the columns and the rows begin and end."""
    lines = {place: [line for atom in atoms for line in folded(atom)] for place, atoms in cells.items()}
    xs, ys = [4 * WIDTH], [HEIGHT + PAD]
    for column in range(last + 1):
        xs.append(xs[-1] + max([width(line) for (_, at), texts in lines.items() if at == column for line in texts] + [3 * WIDTH]) + 2 * PAD)
    for row in range(1, last + 1):
        ys.append(ys[-1] + max([len(texts) for (at, _), texts in lines.items() if at == row]) * HEIGHT + 2 * PAD)
    return xs, ys


def picture(table, objects=(), alone=False):
    """The table as SVG. Each kernel has a rectangle, which isn't seen until it is chosen."""
    cells, last, parameters = grid(table), len(table.rows), parameters_of(table, objects)
    xs, ys = places(cells, last)
    parts = [label((xs[column] + xs[column + 1]) / 2, HEIGHT - 4, str(column)) for column in range(last)]
    for row in range(1, last + 1):
        parts.append(label(PAD, ys[row - 1] + PAD + 13, str(row), anchor='start'))
        for column in range(row + 1):
            place = (xs[column], ys[row - 1], xs[column + 1] - xs[column], ys[row] - ys[row - 1])
            parts += cell(cells.get((row, column), []), row, column, last, place, parameters)
    for kernel in range(1, last + 1):
        parts.append(f'<rect class="kernel" data-kernel="{kernel}" x="{xs[0]:.0f}" y="{ys[kernel - 1]:.0f}" '
                     f'width="{xs[kernel] - xs[0]:.0f}" height="{ys[-1] - ys[kernel - 1]:.0f}"/>')
    return svg(xs[-1] + 4, ys[-1] + 4, f'triangle table {table.name}, {len(table.steps)} steps', parts, parameters if alone else None)


def small(table, kernel, end=''):
    """The outline of a table with a kernel in it, as small as a thumbnail, which paper shows of each turn. A screen reader passes it
    over: all that it says is said beside it."""
    last = len(table.rows)
    rows = ''.join(f'M0 {row - 1}h{min(row + 1, last)}v1h-{min(row + 1, last)}z' for row in range(1, last + 1))
    marks = ''.join(f'M{column + .3:.1f} {row - .7:.1f}h.4v.4h-.4z' for row, line in enumerate(table.rows, 1)
                    for column in sorted({column for column, _ in line.marks}))
    parts = [f'<path class="box" d="{rows}" stroke-width=".05"/>', f'<path class="thing" d="{marks}"/>']
    if 0 < kernel <= last:
        parts.append(f'<rect class="kernel" x="0" y="{kernel - 1}" width="{kernel}" height="{last - kernel + 1}"/>')
    if 0 < kernel < last:
        slipped = ' slipped' if end == 'slipped' else ''
        parts.append(f'<g class="step{slipped}"><rect class="box" x="{kernel + .1:.1f}" y="{kernel - .9:.1f}" '
                     'width=".8" height=".8" style="stroke-width: .1; stroke-dasharray: none"/></g>')
    return f'<svg class="mini" aria-hidden="true" viewBox="-.2 -.2 {last + .4:.1f} {last + .4:.1f}">{"".join(parts)}</svg>'
