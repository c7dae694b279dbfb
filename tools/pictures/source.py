"""Where transcripts come from: standard input, or the program, which is run on a script and asked for the tables of its runs."""
import itertools
import re
import sys
from dataclasses import replace

from pictures.script import read_script
from pictures.story import with_script, without_script
from planex import (MOST_BYTES, MOST_COMMANDS, NoProgram, PlanexError, Pursuit, Refused, Run, Stopped, Table, Unread, replies_of, text_of,
                    transcript_of)


def script_of(path, data):
    """The script in a file."""
    try:
        return read_script(text_of(data))
    except Unread as error:
        error.file = path
        raise


def answer(path, data):
    """What the program prints for a script. Where that isn't answered whole the program says why, and this is the end."""
    try:
        transcript, said = transcript_of(data)
    except (Refused, Stopped) as error:
        sys.stderr.write(re.sub('^stdin:', lambda _: f'{path}:', error.said))
        sys.exit(f'view: {path}: {error}')
    except NoProgram as error:
        sys.exit(f'view: {path}: {error}')
    sys.stderr.write(said)
    return transcript


def asking(data, script):
    """The script with a `show` line behind the first command of each result that no line shows, as long as it has room for one; the places
    of these among the commands; and by line the number of the line that it was before."""
    shown = {*script.tables, *(command.name for command in script.commands if command.word == 'show')}
    names, places, most = {}, [], MOST_COMMANDS if script.version == 1 else 2 * MOST_COMMANDS
    for place, command in enumerate(script.commands):
        if command.word in ('plan', 'learn', 'edit', 'run') and command.name not in shown and len(script.commands) + len(names) < most:
            shown.add(command.name)
            names[command.line] = command.name
            places.append(place + len(names))
    lines, sources = [], []
    for number, line in enumerate(data.split(b'\n'), 1):
        new = [line, f'show {names[number]}'.encode()] if number in names else [line]
        lines += new
        sources += [number] * len(new)
    asked = b'\n'.join(lines)
    return (asked, places, sources) if len(asked) <= MOST_BYTES else (data, [], [])


def answers(path, data, script):
    """The replies to a script, and besides those to `show` lines that are asked where the script has room for them."""
    asked, places, _ = asking(data, script)
    if places:
        try:
            transcript, said = transcript_of(asked)
        except PlanexError:
            return replies_of(answer(path, data)), []
        sys.stderr.write(said)
        replies = replies_of(transcript)
        return ([reply for place, reply in enumerate(replies) if place not in places],
                [reply for place, reply in enumerate(replies) if place in places])
    return replies_of(answer(path, data)), []


def spelled_out(command, reply, recorded, names):
    """The commands of a pursuit one by one: each search that found a plan, its table, and its run with what is recorded from there on."""
    for name, (first, _) in zip(names, reply.runs()):
        yield f'plan {name} {command.text.split(None, 2)[2]}'
        yield f'show {name}'
        for each in recorded:
            if first > 1 and each.turn >= first:
                yield f'disturb {each.turn - first + 1} {each.point} {each.text.split(each.point, 1)[1]}'
        yield f'run {name}'


def plans_of(data, script, replies):
    """By the places of pursuits, the tables of the plans that they found. The program is asked for them by a script in which what a pursuit
    does is spelled out."""
    lines, names, recorded = data.split(b'\n'), {}, []
    used = {*script.tables, *(command.name for command in script.commands)}
    new = (name for name in (f'plan_{number}' for number in itertools.count(1)) if name not in used)
    for place, (command, reply) in enumerate(zip(script.commands, replies)):
        if command.word == 'disturb':
            recorded.append(command)
        elif isinstance(reply, Pursuit) and reply.turns:
            names[place] = [next(new) for _ in reply.runs()]
            lines[command.line - 1] = '\n'.join(spelled_out(command, reply, recorded, names[place])).encode()
        recorded = [] if isinstance(reply, (Pursuit, Run)) else recorded
    if not names:
        return {}
    try:
        tables = {reply.name: reply for reply in replies_of(transcript_of(b'\n'.join(lines))[0]) if isinstance(reply, Table)}
    except PlanexError:
        return {}
    return {place: [replace(tables[name], name=f'{replies[place].name}, search {number}') for number, name in enumerate(own, 1)]
            for place, own in names.items() if all(name in tables for name in own)}


def from_script(path):
    """The story of a script, by the program."""
    data = path.read_bytes()
    try:
        script = script_of(path, data)
    except Unread:
        answer(path, data)
        raise
    replies, asked = answers(path, data, script)
    return with_script(path.stem, script, replies, asked, plans_of(data, script, replies))


def from_input(data, path):
    """The story of a transcript, with its script where a path of one is given."""
    replies = replies_of(text_of(data))
    if path:
        return with_script(path.stem, script_of(path, path.read_bytes()), replies)
    return without_script('transcript', replies)
