"""Bugs that are planted, one at a time, in a copy of what is tested: with each, its test has to fail. They stand in
tests/SUBJECT/bugs.txt:

    a mark is passed over | core.py texts.read | pieces = [(_charset(⟦number⇒None⟧, data[start:end])

A line has a name and, in words of the subject, where the bug is and what finds it, unless a line above that ends with a
colon says that of all below it. Behind it, or below it in lines that begin with =, stand texts that occur exactly once,
in which ⟦what is there⇒what comes in its place⟧ is changed, with ⏎ for the end of a line. Within the brackets a text
may go on in the next line."""
import re
from typing import NamedTuple

from tests.support import places


class Unplantable(Exception):
    """A text that has to be replaced doesn't occur exactly once."""


class Bug(NamedTuple):
    """A name, where it is, and pairs of a right text and a wrong one."""
    name: str
    where: str
    changes: list

    def __str__(self):
        return f"{self.name} | {self.where}"

    def planted(self, texts):
        """Gives these texts, by the names of their files, with the bug."""
        made = dict(texts)
        for right, wrong in self.changes:
            having = [file for file, text in made.items() for _ in range(text.count(right))]
            if len(having) != 1:
                raise Unplantable(f"{right[:200]!r} stands {len(having)} times in {', '.join(texts)}")
            made[having[0]] = made[having[0]].replace(right, wrong)
        return made

    def problem(self, texts):
        """Why the bug can't be planted in these texts, if it can't."""
        try:
            self.planted(texts)
        except Unplantable as why:
            return str(why)
        return None


def bugs_of(subject):
    bugs, begun, heading = [], "", []
    for line in places.text_of("tests", subject, "bugs.txt").splitlines():
        line = begun + line
        begun = line if line.count("⟦") > line.count("⟧") else ""
        if begun or line.startswith("#"):
            continue
        if line.startswith("= "):
            bugs[-1].changes.append(change(line[2:]))
        elif line.endswith(":") and " | " not in line:
            heading = [line[:-1]]
        else:
            name, *rest = line.split(" | ", 1 if heading else 2)
            where, *texts = heading + rest
            bugs.append(Bug(name, where, [change(text) for text in texts]))
    return bugs


def change(text):
    """Gives a right text and a wrong one."""
    return [re.sub("⟦(.*?)⇒(.*?)⟧", part, text, flags=re.S).replace("⏎", "\n") for part in (r"\1", r"\2")]


def sources_in(bug, *folder):
    """Gives the text of a bug's file in a folder, by its name."""
    file = bug.where.split()[0]
    return {file: places.text_of(*folder, file)}
