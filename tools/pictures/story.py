"""Puts a script beside its transcript: which command each reply answers, and the facts at each step and turn.

The facts are worked out from the script's facts, operators and disturbances, and compared with each list of facts that the program tells.
"""
from dataclasses import dataclass, field

from pictures import lacks
from pictures.duo import check_duo, check_step, events_of
from planex import Duo, Facts, Noted, Plan, Pursuit, Run, Saved, Table, Tree, Unread

# The replies that a command may have.
ANSWERS = {
    'plan': ('plan', 'exhausted', 'nodelimit', 'shapelimit'),
    'learn': ('learned', 'notlearned', 'unknown'),
    'edit': ('edited', 'notedited', 'unknown'),
    'show': ('table', 'unknown'),
    'disturb': ('noted',),
    'run': ('run', 'unknown'),
    'duo': ('duo', 'unknown'),
    'facts': ('facts',),
    'save': ('saved', 'notsaved', 'unknown'),
    'certify': ('certified', 'notcertified', 'unknown'),
    'pursue': ('pursue',),
    'tree': ('tree',),
}


@dataclass
class TurnTold:
    """A turn of a run: the disturbances before the look and after it, and the facts at the look, before the step, and at the end."""
    before: list
    seen: frozenset
    between: list
    met: frozenset
    left: frozenset


@dataclass
class Told:
    """A reply with what its script tells of it: the command, the facts before and after each step of a plan, the turns of a run, the events
    of a run of two, the tables of the plans of a pursuit, and what each node of a search lacks."""
    reply: object
    command: object = None
    states: list = field(default_factory=list)
    turns: list = field(default_factory=list)
    events: list = field(default_factory=list)
    plans: list = field(default_factory=list)
    nodes: list = field(default_factory=list)


@dataclass
class Story:
    """A transcript with its title, its script where that is known, and the tables that are told, by name."""
    title: str
    told: list
    script: object = None
    tables: dict = field(default_factory=dict)

    def states(self):
        """The lists of facts at all steps and turns."""
        for item in self.told:
            yield from item.states
            for turn in item.turns:
                yield from (turn.seen, turn.met, turn.left)
            yield from (event.left for event in item.events)


def disturbed(facts, recorded, turn, point):
    """The facts after the disturbances of a turn and point, and their texts."""
    texts = []
    for command in recorded:
        if (command.turn, command.point) == (turn, point):
            texts.append(command.text.split(point, 1)[1].strip())
            for change in command.changes:
                facts = change.of(facts)
    return facts, texts


def turns_of(script, facts, recorded, reply):
    """What is told of the turns of a run from these facts."""
    turns = []
    for number, turn in enumerate(reply.turns, 1):
        seen, before = disturbed(facts, recorded, number, 'before')
        met, between = disturbed(seen, recorded, number, 'between') if turn.step else (seen, [])
        facts = script.change_of(turn.step).of(met) if turn.end == 'acted' else met
        turns.append(TurnTold(before, seen, between, met, facts))
    return turns


def fit(command, reply):
    """May the reply answer the command?"""
    if isinstance(reply, Duo):
        return (command.word, command.name, command.other, command.events) == (
            'duo', reply.name, reply.other, tuple(event.who for event in reply.events))
    named = reply.name in ('', command.name) or command.word in ('learn', 'edit') or command.word in ('run', 'duo') and reply.word == 'unknown'
    return reply.word in ANSWERS[command.word] and named


def without_script(title, replies):
    """What a transcript tells by itself."""
    return Story(title, [Told(reply) for reply in replies], None, tables_of(replies, replies))


def with_script(title, script, replies, asked=(), plans=None):
    """What a transcript and its script tell, with tables that were asked for, and by their places those of the plans of pursuits."""
    tables = tables_of([*script.tables.values(), *asked, *replies], replies)
    story = Story(title, tell(script, replies, tables), script, tables)
    for place, found in (plans or {}).items():
        story.told[place].plans = found
    return story


def tables_of(told, replies):
    """The tables that are told, by name. A run that goes through steps that its table hasn't is refused."""
    tables = {reply.name: reply.table for reply in told if isinstance(reply, Saved)}
    tables.update({reply.name: reply for reply in told if isinstance(reply, Table)})
    for reply in replies:
        if isinstance(reply, Run) and reply.name in tables:
            check_run(reply, tables[reply.name])
        elif isinstance(reply, Duo):
            check_duo(reply, tables)
    return tables


def check_run(reply, table):
    """Are the turns of a run those of its table?"""
    for turn in reply.turns:
        if turn.kernel > len(table.rows) or (turn.kernel == len(table.rows)) != (turn.end == 'goal'):
            raise Unread(reply.line, 'a kernel here is none of the table')
        if turn.step:
            check_step(reply, table, turn)


def steps_of(reply):
    """The steps of a plan, or of a run."""
    if isinstance(reply, (Run, Duo, Pursuit)):
        return [each.step for each in (reply.events if isinstance(reply, Duo) else reply.turns) if each.step]
    return reply.steps if isinstance(reply, Plan) else []


def tell(script, replies, tables):
    """The replies with what the script tells of them. A transcript that isn't the script's is refused."""
    told, facts, recorded = [], frozenset(script.facts), []
    for command, reply in zip(script.commands, replies):
        if not fit(command, reply):
            raise Unread(reply.line, f'line {command.line} of the script isn\'t answered so: {command.text}')
        item = Told(reply, command)
        if not all(map(script.has_step, steps_of(reply))) or isinstance(reply, Tree) and not lacks.is_of(script, reply):
            raise Unread(reply.line, 'a step here is of no operator of the script')
        if isinstance(reply, Plan):
            item.states = [facts]
            for step in reply.steps:
                item.states.append(script.change_of(step).of(item.states[-1]))
        elif isinstance(reply, Noted):
            recorded.append(command)
            if reply.count != len(recorded):
                raise Unread(reply.line, f'{len(recorded)} disturbances are recorded here')
        elif isinstance(reply, (Run, Pursuit)):
            item.turns = turns_of(script, facts, recorded, reply)
            facts, recorded = item.turns[-1].left if item.turns else facts, []
        elif isinstance(reply, Duo):
            item.events = events_of(script, facts, reply, tables)
            facts = item.events[-1].left
        elif isinstance(reply, Tree):
            item.nodes = lacks.nodes_of(script, tables, facts, command, reply)
        elif isinstance(reply, Facts) and facts != frozenset(reply.atoms):
            raise Unread(reply.line, 'these aren\'t the facts to which the script\'s operators and disturbances lead')
        told.append(item)
    if len(replies) != len(script.commands):
        raise Unread(replies[-1].line, f'{len(replies)} replies are here, and the script has {len(script.commands)} commands')
    return told
