"""Makes the page: a section for each transcript, and in it a part for each reply."""
import html
import pathlib

from pictures import floor, legend, tree, triangle
from pictures.drawing import style
from pictures.ends import said_of
from pictures.duo import memories_of, name_of
from pictures.floor import captions
from planex import Certified, Duo, Edited, Facts, Learned, Noted, Plan, Pursuit, Run, Saved, Table, Tree, Unknown, in_order

HERE = pathlib.Path(__file__).resolve().parent
STYLE, SCRIPT = (HERE / 'view.css').read_text(), (HERE / 'view.js').read_text()
MOST_FACTS = 40  # that aren't folded
FULL = '<button class="full" type="button" hidden>Full screen</button>'
COMPUTED = 'worked out from the script by its operators and disturbances: the program tells the steps alone'


def text(words):
    """A text, escaped."""
    return html.escape(str(words))


def breaking(words):
    """A text whose lines may be broken after its commas."""
    return text(words).replace(',', ',<wbr>')


def listed(items, kind='ul', name='list'):
    """A list of things, escaped."""
    return f'<{kind} class="{name}">' + ''.join(f'<li>{breaking(item)}</li>' for item in items) + f'</{kind}>'


def figure(picture, name, caption=''):
    """A picture that can be scrolled with the keyboard where it is wide."""
    above = f'<figcaption>{text(caption)}</figcaption>' if caption else ''
    return f'<figure tabindex="0" role="group" aria-label="{text(name)}">{above}{picture}</figure>'


def choices(table, unique):
    """The choice of a kernel, with what is said of each."""
    last = len(table.rows)
    yield f'<fieldset><legend>kernel of {text(table.name)}</legend>'
    yield f'<label><input type="radio" name="{unique}" value="0" data-said="" checked> none</label>'
    for number in range(1, last + 1):
        lead = f'steps {number} to {last - 1} lead from them to the goal' if number < last - 1 else \
            f'step {number} leads from them to the goal' if number < last else 'the goal rests on them'
        said = f'Kernel {number}: {", ".join(map(str, table.kernel(number))) or "no facts"}; {lead}.'
        yield f'<label><input type="radio" name="{unique}" value="{number}" data-said="{text(said)}"> {number}</label>'
    yield '</fieldset>'


def table_text(table):
    """A table in words."""
    last = len(table.rows)
    for number, row in enumerate(table.rows, 1):
        head = f'row {number}: {"the goal " if number == last else ""}{" ".join(map(str, row.heads))}'
        marks = [f'{atom}, {"true at the start" if column == 0 else f"added by step {column}"}' for column, atom in row.marks]
        yield f'<li>{breaking(head)}{listed(marks) if marks else ""}</li>'


def words(table):
    """A table in words, folded."""
    return f'<details><summary>table {text(table.name)} in words</summary><ul>{"".join(table_text(table))}</ul></details>'


def table_part(table, script, unique):
    """A table with the choice of a kernel, and in words."""
    objects = script.objects if script else ()
    return (f'<section class="table drawn"><h3>{text(table.text)}</h3>'
            f'<div class="slide" tabindex="-1" data-title="{text(table.text)}">{"".join(choices(table, unique))}'
            f'<p role="status"></p>{FULL}{figure(triangle.picture(table, objects), f"triangle table {table.name}")}</div>'
            f'{words(table)}</section>')


def walk(title, caption, first, items, layout, beside=''):
    """Items of which a slider shows one at a time. Without scripts, and on paper, all are shown. Floors are as wide as their layout."""
    last, wide = first + len(items) - 1, f' style="flex-basis: {layout.size[0]:.0f}px"' if layout else ''
    return (f'<div class="walk slide" tabindex="-1" data-title="{text(title)}"><p class="slider" hidden><label>{text(caption)} '
            f'<input type="range" min="{first}" max="{last}" value="{first}"></label> '
            f'<button class="play" type="button">Play</button> {FULL}</p>'
            f'<div class="beside">{beside}<ol class="items"{wide}>{"".join(items)}</ol></div></div>')


def changed_facts(script, facts, gone, come, caption):
    """Facts with those marked that a step deletes and adds; folded where they are many."""
    marked = [(f'<li class="gone"><del>{breaking(fact)}</del></li>' if fact in gone else
               f'<li class="come"><ins>{breaking(fact)}</ins></li>' if fact in come else f'<li>{breaking(fact)}</li>')
              for fact in script.in_order(facts | come)]
    return (f'<details{" open" if len(marked) <= MOST_FACTS else ""}><summary>{text(caption)}</summary>'
            f'<ul class="facts">{"".join(marked)}</ul></details>')


def change_text(script, gone, come):
    """What a step changes, in words."""
    gone, come = (' '.join(map(str, script.in_order(facts))) or 'nothing' for facts in (gone, come))
    return f'<p>The step deletes: {breaking(gone)}. It adds: {breaking(come)}.</p>'


def plan_item(number, caption, states, table, script, layout):
    """The facts, and in a building the floor, before the first step of a plan or after a step."""
    before, after = states[max(number - 1, 0)], states[number]
    yield f'<li data-kernel="{number + 1}">{triangle.small(table, number + 1) if table else ""}<p class="line">{breaking(caption)}</p>'
    if number:
        yield change_text(script, before - after, after - before)
    if layout:
        yield figure(floor.picture(layout, floor.State(script.building, after), caption), caption)
    yield changed_facts(script, before | after, before - after, after - before, f'{len(after)} facts {caption.split(",")[0]}')
    yield '</li>'


def plan_part(item, script, table, layout, is_shown):
    """A plan: its goal, its steps, and beside its table the facts step by step, with the floor in a building."""
    steps, name = item.reply.steps, item.reply.name
    inner = listed(steps, 'ol') if steps else '<p>No step: the goal holds already.</p>'
    beside = figure(triangle.picture(table, script.objects if script else ()), f'triangle table {name}') if table else ''
    if item.states:
        items = [''.join(plan_item(number, caption, item.states, table, script, layout)) for number, caption in enumerate(captions(steps))]
        rooms = ' Rooms stand in the order of the script, which doesn\'t say how they lie.' if layout else ''
        outlines = ' The outlined kernel is what has to be true then.' if table else ''
        inner += f'<p class="note">Facts{" and floors" if layout else ""}: {COMPUTED}.{rooms}{outlines}</p>'
        inner += walk(item.reply.text, f'step of {name}', 0, items, layout, beside)
    elif beside:
        inner += beside
    folded = words(table) if table and not is_shown else ''
    kind = 'plan drawn' if item.states or table else 'plan'
    return f'<section class="{kind}"><h3>{text(item.reply.text)}</h3>{goal(item)}{inner}{folded}</section>'


def goal(item, before=2):
    """The goal of a search, which its command has after so many words."""
    return f'<p class="goal">goal: {breaking(item.command.text.split(None, before)[before])}</p>' if item.command else ''


def values_of(table, turn, objects):
    """What the parameters of the turn's step stand for: the table's row beside the step."""
    row = table.rows[turn.kernel - 1].heads[0]
    values = dict(zip(row.arguments, turn.step.arguments))
    return ', '.join(f'{name} is {values[name]}' for name in triangle.parameters_of(table, objects) if name in values)


def turn_facts(told, turn, script):
    """What a step changes, and the facts that the executor sees, with these marked."""
    gone, come = (told.met - told.left, told.left - told.met) if turn.end == 'acted' else (frozenset(), frozenset())
    if turn.end == 'acted':
        yield change_text(script, gone, come)
    yield changed_facts(script, told.seen, gone, come - told.seen, f'{len(told.seen)} facts when the executor looks')


def turn_item(turn, told, table, script, layout, place=0):
    """A turn of a run, whose table stands at that place among those beside."""
    small = triangle.small(table, turn.kernel, turn.end) if table else ''
    yield (f'<li data-kernel="{"0 " * place}{turn.kernel}" data-end="{"other " * place}{turn.end}">{small}'
           f'<p class="line">{breaking(turn.text)}</p>')
    if told:
        yield ''.join(f'<p>Before the look: {text(line)}</p>' for line in told.before)
        yield ''.join(f'<p>Between the look and the step: {text(line)}</p>' for line in told.between)
    values = values_of(table, turn, script.objects if script else ()) if table and turn.step else ''
    if values:
        yield f'<p>{text(values)}</p>'
    if told and layout:
        for caption, facts in (('when the executor looks', told.seen), ('at the end of the turn', told.left)):
            yield figure(floor.picture(layout, floor.State(script.building, facts), caption), caption, caption)
    if told:
        yield from turn_facts(told, turn, script)
    yield '</li>'


def search_after(reply, search):
    """What is said of a search that begins where no kernel is found."""
    found = 'finds a plan, which is run from the next turn on' if search <= len(reply.runs()) else 'finds no plan'
    return f'<p>Search {search} begins from these facts: it {found}.</p></li>'


def pursuit_items(item, script, layout):
    """The turns of a pursuit, with the search that follows a run."""
    turns, plans = iter(item.turns or [None] * len(item.reply.turns)), item.plans or [None] * item.reply.searches
    for place, (plan, (_, run)) in enumerate(zip(plans, item.reply.runs())):
        items = [''.join(turn_item(turn, next(turns), plan, script, layout, place if plan else 0)) for turn in run]
        yield from items[:-1]
        yield items[-1][:-len('</li>')] + search_after(item.reply, place + 2) if run[-1].end == 'nokernel' else items[-1]


def pursuit_part(item, script, layout):
    """A pursuit: the turns of its runs on one slider, beside the tables of its plans where these were asked for, and how it ends."""
    reply, items = item.reply, [*pursuit_items(item, script, layout)]
    named = [(f'plan of search {number}', plan) for number, plan in enumerate(item.plans, 1)]
    beside = ''.join(figure(triangle.picture(plan, script.objects), f'triangle table of the {name}', name) for name, plan in named)
    inner = goal(item) + f'<p>Searches: {reply.searches}, each from the facts at that time. The first comes before turn 1.</p>'
    inner += ''.join(f'<p>The {name}: {breaking(", ".join(map(str, plan.steps)) or "no step")}.</p>' for name, plan in named)
    inner += f'<p class="note">Facts{" and floors" if layout else ""}: {COMPUTED}.</p>' if item.turns else ''
    inner += walk(reply.text, f'turn of {reply.name}', 1, items, layout, beside) if items else ''
    if reply.end:
        numbers, meaning = said_of(reply.end)
        inner += f'<p class="line">{text(reply.end.text)}</p><p>{text(f"{numbers} {meaning}".strip())}</p>'
    return f'<section class="run{" drawn" if items else ""}"><h3>{text(reply.text)}</h3>{inner}</section>'


def tree_part(item):
    """A search as a tree, with what is said of the node that is chosen."""
    reply = item.reply
    note = '<p class="note">What a node lacks of the facts is worked out from the script; an axiom may give it.</p>' if item.nodes else ''
    return (f'<section class="drawn"><h3>{text(reply.text)}</h3>{goal(item, 3)}<p>{text(tree.summary(reply))}</p>{note}'
            f'<div class="search slide" tabindex="-1" data-title="{text(reply.text)}">{tree.levels(reply)}{FULL}<p role="status"></p>'
            f'{figure(tree.picture(reply, item.nodes), f"search {reply.name}")}</div></section>')


def lines_part(reply, caption):
    """The lines of a reply, folded."""
    return f'<details><summary>{text(caption)}</summary><pre>{text(chr(10).join(reply.lines))}</pre></details>'


def saved_part(reply, script, unique):
    """A saved table, and the block that it is in a script."""
    return table_part(reply.table, script, unique) + lines_part(reply, f'the block of {reply.name}')


def certified_part(item):
    """A certificate."""
    reply = item.reply
    title = f'certificate of {item.command.name}' if item.command else reply.text
    return (f'<section><h3>{text(title)}</h3><p>A table of {reply.parameters} parameters and {reply.steps} steps, with its whole problem. '
            f'./planex check tests it (docs/CERTIFICATES.md).</p>{lines_part(reply, "its lines")}</section>')


def run_part(item, script, table, layout):
    """A run with a slider over its turns, over its table if that is told."""
    reply, turns = item.reply, item.turns or [None] * len(item.reply.turns)
    items = [''.join(turn_item(turn, told, table, script, layout)) for turn, told in zip(reply.turns, turns)]
    beside = figure(triangle.picture(table, script.objects if script else ()), f'triangle table {table.name}') if table else ''
    notes = '' if table else '<p class="note">The transcript doesn\'t show its table.</p>'
    notes += f'<p class="note">Facts{" and floors" if layout else ""}: {COMPUTED}.</p>' if item.turns else ''
    title = item.command.text if item.command else reply.text
    return (f'<section class="run drawn"><h3>{text(title)}</h3>'
            f'{notes}{walk(title, f"turn of {reply.name}", 1, items, layout, beside)}</section>')


def since(number):
    """When an executor sensed what it remembers."""
    return f'since event {number}'


def event_text(number, reply, told, memories):
    """What one of two executors does at an event, in words."""
    event = reply.events[number - 1]
    who = f'Executor {event.who}, of {name_of(reply, event.who)},'
    if event.end == 'sensed':
        return f'{who} finds kernel {event.kernel} and remembers {event.step}.'
    if event.end in ('goal', 'nokernel'):
        return f'{who} finds {"that its goal is reached" if event.end == "goal" else "no kernel"}.'
    own = memories[number - 1][event.who]
    if event.end == 'acted':
        return f'{who} takes {event.step}, which it has remembered {since(own.event)}.'
    causes = [f'{lost.fact}, which event {lost.event} deleted: {lost.step} of the other' for lost in told.lost] if told else []
    steps = [f'event {at + 1}: {other.step}' for at, other in enumerate(reply.events[:number - 1])
             if at >= own.event and other.who != event.who and other.end == 'acted']
    why = f'It rests on {"; and on ".join(causes)}.' if causes else f'Since then the other acted: {"; ".join(steps)}.'
    return f'{who} doesn\'t take {event.step}, which it has remembered {since(own.event)}. {why}'


def event_item(number, reply, told, memories, tables, script, layout):
    """An event of one of two executors, with what both remember then."""
    event, kernels, ends = reply.events[number - 1], [], []
    for who in (1, 2):
        table, kept = tables.get(name_of(reply, who)), memories[number].get(who)
        is_own = event.who == who
        goal = len(table.rows) if table and is_own and event.end == 'goal' else 0
        kernels += [str(goal or (event.kernel if is_own else kept.kernel if kept else 0))] if table else []
        ends += [event.end if is_own else 'other'] if table else []
    small = triangle.small(tables[name_of(reply, event.who)], event.kernel, event.end) if name_of(reply, event.who) in tables else ''
    yield (f'<li data-kernel="{" ".join(kernels)}" data-end="{" ".join(ends)}">{small}'
           f'<p class="line">event {number}: {breaking(event.text)}</p>')
    yield f'<p>{breaking(event_text(number, reply, told, memories))}</p>'
    yield '<p>Remembered then: ' + '; '.join(
        f'{who}: ' + (f'{breaking(kept.step)} {since(kept.event)}' if kept else 'nothing')
        for who, kept in ((who, memories[number].get(who)) for who in (1, 2))) + '.</p>'
    if told:
        if layout:
            caption = f'after event {number}'
            yield figure(floor.picture(layout, floor.State(script.building, told.left), caption), caption, caption)
        gone, come = told.met - told.left, told.left - told.met
        yield change_text(script, gone, come) if event.end == 'acted' else ''
        yield changed_facts(script, told.met, gone, come, f'{len(told.left)} facts after it')
    yield '</li>'


def duo_part(item, script, tables, layout):
    """A run of two executors: both tables, with one slider over the events."""
    reply, told, memories = item.reply, item.events or [None] * len(item.reply.events), memories_of(item.reply.events)
    items = [''.join(event_item(number, reply, one, memories, tables, script, layout)) for number, one in enumerate(told, 1)]
    objects = script.objects if script else ()
    own = [(f'executor {who}: {name_of(reply, who)}', tables.get(name_of(reply, who))) for who in (1, 2)]
    beside = ''.join(figure(triangle.picture(table, objects), f'triangle table of {caption}', caption) for caption, table in own if table)
    missing = [caption for caption, table in own if not table]
    notes = ''.join(f'<p class="note">The transcript doesn\'t show the table of {text(caption)}.</p>' for caption in missing)
    notes += f'<p class="note">Facts{" and floors" if layout else ""}: {COMPUTED}.</p>' if item.events else ''
    title = item.command.text if item.command else reply.text
    return (f'<section class="run drawn"><h3>{text(title)}</h3>{notes}'
            f'{walk(title, f"event of {reply.name} and {reply.other}", 1, items, layout, beside)}</section>')


def other_part(item):
    """A reply that isn't drawn: its lines, and what it means that a search found no plan."""
    reply, said = item.reply, ''
    if item.command and isinstance(reply, (Noted, Unknown)):
        said = f'<p>{text(item.command.text)}</p>'
    numbers, meaning = said_of(reply)
    if meaning:
        said = f'{goal(item)}<p>{text(numbers)}</p><p>{text(meaning)}</p>' if numbers else f'{goal(item)}<p>{text(meaning)}</p>'
    atoms = reply.atoms if isinstance(reply, Facts) else []
    return f'<section><h3>{text(reply.text)}</h3>{said}{listed(atoms, name="facts") if atoms else ""}</section>'


def parts(story, unique):
    """The section of one transcript."""
    script, tables = story.script, story.tables
    yield f'<section aria-labelledby="s{unique}"><h2 id="s{unique}">{text(story.title)}</h2>'
    if script:
        facts = script.in_order(frozenset(script.facts))
        yield f'<details><summary>facts of the script</summary>{listed(facts, name="facts")}</details>'
    layout, shown = floor.layout_of(story), {item.reply.name for item in story.told if isinstance(item.reply, (Saved, Table))}
    for name, table in (script.tables if script else {}).items():
        if name not in shown:
            yield table_part(table, script, f'b{unique}-{text(name)}')
    for number, item in enumerate(story.told):
        reply = item.reply
        if isinstance(reply, Table):
            yield table_part(reply, script, f'k{unique}-{number}')
        elif isinstance(reply, Saved):
            yield saved_part(reply, script, f'k{unique}-{number}')
        elif isinstance(reply, Certified):
            yield certified_part(item)
        elif isinstance(reply, Pursuit):
            yield pursuit_part(item, script, layout)
        elif isinstance(reply, Tree):
            yield tree_part(item)
        elif isinstance(reply, Run):
            yield run_part(item, script, tables.get(reply.name), layout)
        elif isinstance(reply, Duo):
            yield duo_part(item, script, tables, layout)
        elif isinstance(reply, Plan):
            yield plan_part(item, script, tables.get(reply.name), layout, reply.name in shown)
        else:
            yield other_part(item)
            if isinstance(reply, (Learned, Edited)) and reply.name in tables and reply.name not in shown:
                yield table_part(tables[reply.name], script, f'k{unique}-{number}')
    yield '</section>'


def page(stories, is_folded=False):
    """The page of some transcripts, with its legend open or folded."""
    links = ''.join(f'<li><a href="#s{number}">{text(story.title)}</a></li>' for number, story in enumerate(stories))
    body = [part for number, story in enumerate(stories) for part in parts(story, number)]
    names = in_order({name for story in stories for table in story.tables.values() for name in table.parameters()})
    return (f'<!doctype html>\n<html lang="en"><head><meta charset="utf-8"><meta name="viewport" content="width=device-width">'
            f'<title>planex: {text(", ".join(story.title for story in stories))}</title><style>{STYLE}{style(names)}</style></head>'
            f'<body><main><h1>planex</h1>\n<p hidden><button id="projector" type="button" aria-pressed="false">Projector</button></p>\n'
            + legend.of(stories, is_folded)
            + (f'<nav aria-label="transcripts"><ul>{links}</ul></nav>\n' if len(stories) > 1 else '') + '\n'.join(body)
            + f'\n</main><script>{SCRIPT}</script></body></html>\n')
