"""What the page's library says of symbols, without the page: in Node.js, by judge.mjs."""
import functools
import json
import os
import subprocess

from tests import corpus
from tests.page.stage import flat, spelled
from tests.support import package, places

JUDGE = ["node", places.path("tests", "page", "judge.mjs"), places.path("web", "out", "lowered.wasm")]
SHAPES = {"square": 0, "rectangle": 1, "extended": 2, "any": 3}
ONE = 4
SMALLEST = 2  # the form


@functools.cache
def judge_of(process):
    """What answers in a process for as long as that lives."""
    return subprocess.Popen(JUDGE, stdin=subprocess.PIPE, stdout=subprocess.PIPE, text=True, encoding="utf-8")


def judged(questions):
    """What the library answers to questions, without the page."""
    judge, answers = judge_of(os.getpid()), []
    for question in questions:
        print(json.dumps(question), file=judge.stdin, flush=True)
        answers.append(json.loads(judge.stdout.readline()))
    return answers


def content_of(line, head=None):
    """The content of a line as `ecc200 read --escapes` prints it, with this head, if the line has none."""
    items, marks, own = corpus.content_of(line)
    if isinstance(own, tuple):
        own = {"part": own[0], "parts": own[1], "file": list(own[2:])}
    places_of_marks = [{"place": place, "number": number} for place, number in marks]
    return {"items": list(items), "marks": places_of_marks, "head": own or head}


def line_of_text(text):
    """The line of a text, as Python writes it in the smallest square."""
    data, marks = package.imported().charsets.content_of(text)
    return "".join(f"\\E{{{number}}}" for _, number in marks) + spelled(data)


def how_in(size, profile=0):
    """How a message is written in a size, or in the smallest of a shape."""
    rows, columns = (map(int, (size.split("x") * 2)[:2])) if size[0].isdigit() else (0, 0)
    return {"form": profile, "shape": SHAPES.get(size, ONE), "rows": rows, "columns": columns}


def asked_to_write(line, size, profile=0, head=None):
    return {"content": content_of(line, head), "how": how_in(size, profile)}


def asked_to_read(text, doubtful="", limit=None):
    rows = text.split("\n")
    return {"rows": len(rows), "columns": len(rows[0]), "text": flat(text), "doubtful": doubtful, "limit": limit}


def in_lines(symbol):
    """A symbol of the judge as the lines of its grid."""
    columns = symbol["columns"]
    return "\n".join(symbol["text"][k : k + columns] for k in range(0, len(symbol["text"]), columns))


def written_in(line, size, profile=0, head=None):
    """The grid of a content in a size, or why there is none."""
    (symbol,) = judged([asked_to_write(line, size, profile, head)])
    return symbol.get("fault") or in_lines(symbol)


def name_of(text):
    """The name of a grid's size."""
    rows = text.split("\n")
    return str(len(rows)) if len(rows) == len(rows[0]) else f"{len(rows)}x{len(rows[0])}"


def words_of(symbol):
    """The size of a symbol, or of one of the table, as the page says it."""
    return f"{symbol['rows']} × {symbol['columns']}"


@functools.cache
def table():
    """The sizes, by their names."""
    sizes = judged([{"isTable": True}])[0]
    named = lambda it: str(it["rows"]) if it["rows"] == it["columns"] else f"{it['rows']}x{it['columns']}"
    return {named(size): size for size in sizes}
