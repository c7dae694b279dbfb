"""Makes the page from its parts beside this file, the words of the language and the examples."""
import base64
import hashlib
import json
import pathlib
import re
import string

from pictures.page import SCRIPT
from refusals.words import BUILDING, COMMAND, OPERATOR, TABLE, WORDS

HERE = pathlib.Path(__file__).resolve().parent
EXAMPLES = HERE.parent.parent / 'examples'
FOLDERS = ('tutorial', 'exercises')  # of examples, besides those that its index lists
MOST_BYTES = 1048576


def kinds():
    """How each word is coloured."""
    return {name: 'command' if COMMAND in word.places else 'block' if word.places[0] in (OPERATOR, BUILDING, TABLE) else 'declaration'
            for name, word in WORDS.items()}


def number_first(path):
    """An order by the number at the head of a name; a script to begin with comes before its solution."""
    found = re.match(r'\d+', path.stem)
    return int(found[0]) if found else 0, not path.stem.endswith('-begin'), path.stem


def examples():
    """The examples as pairs of a title and scripts, which are pairs of a name and a text: first by the titles of their index."""
    index = (EXAMPLES / 'README.md').read_text()
    groups = [(title, [EXAMPLES / name for name in re.findall(r'^\| \[[\w-]+\]\(([\w/-]+\.planex)\)', text, re.M)])
              for title, text in re.findall(r'^## (.*)\n((?:(?!## ).*\n)*)', index, re.M)]
    groups += [(folder.capitalize(), sorted((EXAMPLES / folder).glob('*.planex'), key=number_first)) for folder in FOLDERS]
    return [(title, [(path.stem, path.read_text()) for path in paths if path.exists()]) for title, paths in groups if paths]


def page():
    """The page."""
    told = json.dumps({'words': kinds(), 'examples': examples(), 'most': MOST_BYTES}).replace('<', '\\u003c')
    return string.Template((HERE / 'page.html').read_text()).substitute(
        style=(HERE / 'page.css').read_text(), script=(HERE / 'page.js').read_text(), told=told)


def hashed(script):
    """A script by its sum, as a policy names it."""
    return f"'sha256-{base64.b64encode(hashlib.sha256(script.encode()).digest()).decode()}'"


def policy():
    """What the page may do: its own script and that of the pictures, and no others; asks of this server alone."""
    return (f"default-src 'none'; script-src {hashed((HERE / 'page.js').read_text())} {hashed(SCRIPT)}; style-src 'unsafe-inline'; "
            "img-src data:; connect-src 'self'; base-uri 'none'; form-action 'none'; frame-ancestors 'none'")
