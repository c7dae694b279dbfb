"""What is told of a run of two executors: what each of them remembers, and where one slips, which step of the other made it slip."""
from dataclasses import dataclass

from planex import Unread


@dataclass
class Remembered:
    """What an executor remembers: the event at which it sensed, the kernel and the step."""
    event: int
    kernel: int
    step: object


@dataclass
class Lost:
    """A fact that a step rests on and that is gone: the event of the other that deleted it, and the step that it took."""
    fact: object
    event: int
    step: object


@dataclass
class EventTold:
    """An event of one of two executors: what both remember before it and after, the facts before it and after, and why it slipped."""
    before: dict
    after: dict
    met: frozenset
    left: frozenset
    lost: list


def memories_of(events):
    """What both executors remember before each event, and after the last: by executor, as far as it remembers a step."""
    memories = [{}]
    for number, event in enumerate(events, 1):
        others = {who: kept for who, kept in memories[-1].items() if who != event.who}
        memories.append({**others, event.who: Remembered(number, event.kernel, event.step)} if event.end == 'sensed' else others)
    return memories


def values_at(table, kernel, step):
    """What the parameters of a row stand for, as far as its step tells."""
    names = table.parameters()
    return {own: value for own, value in zip(table.rows[kernel - 1].heads[0].arguments, step.arguments) if own in names}


def check_step(reply, table, at):
    """A step of a run has to be that of its row."""
    if table.rows[at.kernel - 1].heads[0].under(values_at(table, at.kernel, at.step)) != at.step:
        raise Unread(reply.line, 'a step here is none of the table')


def check_duo(reply, tables):
    """Are the events of a run of two those of their tables?"""
    for event in reply.events:
        table = tables.get(name_of(reply, event.who))
        if table and event.step:
            if event.kernel >= len(table.rows):
                raise Unread(reply.line, 'a kernel here is none of the table')
            check_step(reply, table, event)


def name_of(reply, who):
    """The name of an executor's table."""
    return reply.name if who == 1 else reply.other


def lost_by(told, reply, number, table):
    """Why a step slips: the facts of its row that were true when it was sensed and are gone, each with the step of the other that deleted
    it. Of a fact with a parameter that the step doesn't name, each that was deleted since then is told."""
    own = told[number - 1].before[reply.events[number - 1].who]
    values = values_at(table, own.kernel, own.step)
    free = {name: '$' for name in table.parameters() if name not in values}
    for mark in table.rows[own.kernel - 1].marks:
        pattern = mark.atom.under({**values, **free})
        gone = {}
        for at in range(own.event, number - 1):
            for fact in told[at].met - told[at].left:
                if pattern.is_pattern_of(fact) and fact not in told[number - 1].met:
                    gone[fact] = Lost(fact, at + 1, reply.events[at].step)
        yield from gone.values()


def events_of(script, facts, reply, tables):
    """What is told of the events of a run of two from these facts."""
    memories, told = memories_of(reply.events), []
    for number, event in enumerate(reply.events, 1):
        left = script.change_of(event.step).of(facts) if event.end == 'acted' else facts
        told.append(EventTold(memories[number - 1], memories[number], facts, left, []))
        table = tables.get(name_of(reply, event.who))
        if event.end == 'slipped' and table:
            told[-1].lost = list(lost_by(told, reply, number, table))
        facts = left
    return told
