"""Finds the sentence on a refusal: the program tells the line, the code and the limit, and the script the rest."""
from refusals.hints import no_text
from refusals.scripts import Declared, Line, shown, visible
from refusals.sentences import sentence
from refusals.words import SENTENCES

NO_TEXT, NO_CERTIFICATE = 1, 13


def texts_of(lines):
    """The lines of a script as texts."""
    text = b'\n'.join(lines).decode('utf-8', 'replace')
    return text[text.startswith('\ufeff'):].split('\n')


def known_before(texts, at):
    """What the lines before a line have declared, as far as they can be read."""
    known = Declared()
    for number, text in enumerate(texts[:at - 1], 1):
        try:
            known.take(number, text)
        except (IndexError, KeyError, ValueError):
            pass
    return known


def said_of(lines, refusal, known):
    """The sentence on a refusal, which is a line, a code and a limit."""
    at, code, limit = refusal
    if code == NO_CERTIFICATE:
        return SENTENCES[code] if at < len(lines) or lines[-1] else 'the certificate ends before this line'
    return no_text(lines, at) if code == NO_TEXT else sentence(code, limit, Line(texts_of(lines)[at - 1]), known)


def explained(name, lines, refusal, known):
    """The sentence on a refusal, with its place, and the refused line."""
    at, code, _ = refusal
    return f'{visible(name)}:{at}: {said_of(lines, refusal, known)} (code {code})\n    {shown(texts_of(lines)[at - 1])}'
