"""Answers one script for the page: runs the program on it, and draws what it replies.

usage: answer.py PARENT SECONDS MEMORY PROGRAM, with the script on standard input

PARENT is the number of the process that starts this. The program may take so many seconds of processor time and bytes of memory.

Prints a line of JSON with what the program replied and how it ended, and then one with the page of tools/view, where there is one to draw.
The server starts this as a process of its own for each script, so that what a script costs has limits and can be ended. The signal TERM
ends the program; what it has replied by then is printed and drawn.
"""
import json
import os
import pathlib
import signal
import subprocess
import sys

TOOLS = pathlib.Path(__file__).resolve().parent.parent
sys.path.insert(0, str(TOOLS))

from pictures.page import page  # noqa: E402
from pictures.script import read_script  # noqa: E402
from pictures.source import asking  # noqa: E402
from pictures.story import with_script, without_script  # noqa: E402
from planex import Lines, Unread, read_reply, text_of  # noqa: E402
from refusals.explained import known_before, said_of, texts_of  # noqa: E402
from workbench.limits import end_with, limit, limit_memory, memory_of, unlimit_memory  # noqa: E402

REFUSED, NO_MEMORY = 3, 6
READING, DRAWING = 20, 40  # the seconds of processor time by which a script has to be read, and its pictures drawn, by this process
WATCH = 0.1  # the seconds between two looks at the program's memory


class Run:
    """A run of the program, which the signal TERM ends, and the limits."""

    def __init__(self, program, seconds, memory):
        self.program, self.seconds, self.memory = program, seconds, memory
        self.process, self.is_stopped, self.is_large = None, False, False

    def stop(self, *_):
        self.is_stopped = True
        if self.process:
            self.process.kill()

    def answer(self, data):
        """What the program writes for a script, and its status."""
        own = os.getpid()
        signal.signal(signal.SIGTERM, self.stop)

        def begin():
            signal.signal(signal.SIGTERM, signal.SIG_DFL)
            unlimit_memory()
            end_with(own)
            limit(self.seconds)

        self.process = subprocess.Popen([self.program, 'run'], stdin=subprocess.PIPE, stdout=subprocess.PIPE, stderr=subprocess.DEVNULL,
                                        env={}, preexec_fn=begin)
        if self.is_stopped:
            self.process.kill()
        while True:
            try:
                written, _ = self.process.communicate(data, timeout=WATCH)
                return written, self.process.returncode
            except subprocess.TimeoutExpired:
                data = None  # what has begun goes on
                if memory_of(self.process.pid) > self.memory:
                    self.is_large = True
                    self.process.kill()


def whole_replies(written):
    """The replies that stand whole in what was written."""
    lines, replies = Lines(written[:written.rfind(b'\n') + 1].decode('utf-8', 'replace')), []
    try:
        while lines.rest():
            replies.append(read_reply(lines))
    except Unread:
        pass
    return replies


def told_by(lines, replies):
    """The lines of some replies."""
    ends = [reply.line - 1 for reply in replies[1:]] + [len(lines)]
    return [lines[reply.line - 1:end] for reply, end in zip(replies, ends)]


def end_of(run, status):
    """How a run of the program ended, and a sentence on it where it didn't answer all."""
    if run.is_stopped:
        return 'stopped', 'Stopped. The replies up to then stand here.'
    if status == -signal.SIGXCPU:
        return 'time', f'Ended after {run.seconds} seconds of processor time. The replies up to then stand here.'
    if run.is_large or status == NO_MEMORY:
        return 'memory', 'Ended since the whole answer takes more memory than a script may take here. The replies up to then stand here.'
    if status:
        return 'failed', f'The program stopped (status {status}). The replies up to then stand here.'
    return 'answered', ''


def refused(data, written, sources):
    """What is said of a script that is refused: the line, and the sentence on it."""
    _, _, line, _, code, _, number = written.split()
    at = sources[int(line) - 1] if sources else int(line)
    lines = data.split(b'\n')
    said = said_of(lines, (at, int(code), int(number)), known_before(texts_of(lines), at))
    return {'end': 'refused', 'line': at, 'said': f'{said} (code {int(code)})'}


def main():
    parent, seconds, memory = map(int, sys.argv[1:4])
    end_with(parent)
    limit(READING)
    limit_memory(memory)
    data = sys.stdin.buffer.read()
    run, script, asked, places, sources = Run(sys.argv[4], seconds, memory), None, data, [], []
    try:
        script = read_script(text_of(data))
        asked, places, sources = asking(data, script)
    except Unread:
        pass  # the program says what is wrong with it
    written, status = run.answer(asked)
    if status == REFUSED:
        print(json.dumps(refused(data, written, sources)), flush=True)
        return
    replies = whole_replies(written)
    texts = told_by(written.decode('utf-8', 'replace').split('\n'), replies)
    own = [text for place, text in enumerate(texts) if place not in places]
    end, said = end_of(run, status)
    print(json.dumps({'end': end, 'said': said, 'replies': '\n'.join('\n'.join(text).rstrip('\n') for text in own)}), flush=True)
    draw(script, [reply for place, reply in enumerate(replies) if place not in places],
         [reply for place, reply in enumerate(replies) if place in places])


def draw(script, replies, asked):
    """Prints the page of some replies, and of tables that were asked for besides."""
    if not replies:
        return
    limit(DRAWING)
    if script:
        script.commands = script.commands[:len(replies)]
    story = with_script('script', script, replies, asked) if script else without_script('script', replies)
    print(json.dumps({'page': page([story], is_folded=True)}), flush=True)


if __name__ == '__main__':
    main()
