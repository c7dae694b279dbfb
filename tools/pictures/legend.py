"""The legend of a page: what columns, colours, outlines and signs mean, as far as the page has them."""
from planex import Duo, Pursuit, Run, Tree


def sign(inner):
    """A small picture that a screen reader passes over: the text beside it says all."""
    return f'<svg width="28" height="18" viewBox="0 0 28 18" aria-hidden="true">{inner}</svg>'


BOX = '<rect class="box" x="1" y="1" width="26" height="16"/>'
KERNEL = '<rect class="kernel" style="display: inline" x="2" y="2" width="24" height="14"/>'
OF_TABLES = (
    (BOX, 'a fact that a step rests on, or in the last row the goal. Column 0: it is true at the start. Column k: step k adds it'),
    (f'<g class="step">{BOX}</g>', 'a step. Its row has what it rests on, its column what it adds for later steps'),
    (KERNEL, 'kernel k: the rows from step k on, the columns before it. Where its facts are true, the steps from k on lead to the goal'),
    (f'<g class="out">{BOX}</g>', 'what is outside of the chosen kernel'),
)
OF_PARAMETERS = ('<text class="{name}" x="4" y="14">{name}</text>',
                 'a parameter of a learned table, which has one colour wherever it stands')
OF_RUNS = (
    (f'<g class="slipped">{BOX}</g>', 'a step that slipped: the world changed between the look and the step'),
)
OF_FACTS = (
    ('<text x="8" y="14">+</text>', 'a fact that the step adds'),
    ('<text x="8" y="14">\u2212</text>', 'a fact that the step deletes'),
)
OF_SEARCHES = (
    ('<text x="4" y="14">+3</text>', 'nodes behind this one that are folded: a click, or the arrow to the right, shows them'),
    ('<rect x="2" y="2" width="24" height="14" fill="none" stroke="currentColor" stroke-width="3"/>',
     'a node that leads to the solved one'),
)
OF_FLOORS = (
    ('<circle class="thing" cx="14" cy="9" r="6"/>', 'the robot'),
    ('<rect class="thing" x="8" y="3" width="12" height="12"/>', 'a box'),
    ('<rect class="box" x="1" y="2" width="26" height="14"/><line class="door" x1="14" y1="1" x2="14" y2="17"/>', 'a closed door'),
    ('<rect class="box" x="1" y="5" width="26" height="12"/><line class="door" x1="5" y1="5" x2="23" y2="5"/>', 'an open door'),
)


def entries(stories):
    """The entries that the stories need."""
    replies = [item.reply for story in stories for item in story.told]
    tables = [table for story in stories for table in (*story.tables.values(), *(plan for item in story.told for plan in item.plans))]
    parameters = [name for table in tables for name in table.parameters()]
    if tables:
        yield from OF_TABLES
    if parameters:
        yield OF_PARAMETERS[0].format(name=parameters[0]), OF_PARAMETERS[1]
    if tables and any(isinstance(reply, (Duo, Pursuit, Run)) for reply in replies):
        yield from OF_RUNS
    if any(item.states or item.turns or item.events for story in stories for item in story.told):
        yield from OF_FACTS
    if any(isinstance(reply, Tree) for reply in replies):
        yield from OF_SEARCHES
    if any(story.script and story.script.building and any(True for _ in story.states()) for story in stories):
        yield from OF_FLOORS


def of(stories, is_folded):
    """The legend, or nothing where nothing is drawn."""
    lines = ''.join(f'<li>{sign(inner)}{said}</li>' for inner, said in entries(stories))
    opened = '' if is_folded else ' open'
    return f'<details class="legend"{opened}><summary>legend</summary><ul>{lines}</ul></details>\n' if lines else ''
