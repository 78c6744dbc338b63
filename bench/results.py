"""Reads and writes the tables of bench/results: what was measured, a file NAME.tsv for each kind, which the tool that measures it writes. For the tools of bench/ and .ci/edits; it is no command.

The first line of a file names its columns. Some of them tell a row from the others; the last three say at which commit it was measured (`-dirty` where the tree differed in something else
than these tables), on which day, and by which kit. A tool replaces the rows that it measured anew, and leaves the others."""
import datetime
import os
import re
import subprocess

TOP = os.path.dirname(os.path.dirname(os.path.abspath(__file__)))
STAMP = ("commit", "date", "kit")


def said_by(*words):
    """Returns what a command prints, or nothing where there is none or it fails."""
    try:
        ran = subprocess.run(words, cwd=TOP, stdin=subprocess.DEVNULL, stdout=subprocess.PIPE, stderr=subprocess.DEVNULL, text=True, check=False)
    except OSError:
        return ""
    return "" if ran.returncode else ran.stdout.strip()


def stamp():
    """Returns where, when and by what it is measured; a tool takes it before it measures, since the tree may change meanwhile."""
    commit, kit = said_by("git", "rev-parse", "--short=8", "HEAD"), re.match(r"rattle-kit-(\S+)", said_by("rt", "version"))
    differs = said_by("git", "status", "--porcelain", "--", ".", ":!bench/results")
    return {"commit": (commit or "unknown") + ("-dirty" if differs else ""), "date": datetime.date.today().isoformat(), "kit": kit[1] if kit else "unknown"}


def rows_of(path):
    """Returns the rows of a file, each as a dictionary by the names of its columns, and those names. There are none where there is no file."""
    if not os.path.exists(path):
        return [], ()
    with open(path, encoding="utf-8") as it:
        head, *lines = [line.split("\t") for line in it.read().splitlines()] or [[]]
    for number, cells in enumerate(lines, 2):
        if len(cells) != len(head):
            raise ValueError(f"{path}:{number}: {len(cells)} cells, and the head has {len(head)}")
    return [dict(zip(head, cells)) for cells in lines], tuple(head)


class Table:
    """A table of bench/results. `keys` are the columns that tell a row from the others, `cells` what else it says, each as words in one text."""

    def __init__(self, name, keys, cells, folder=f"{TOP}/bench/results"):
        self.path, self.keys = f"{folder}/{name}.tsv", keys.split()
        self.columns = (*self.keys, *cells.split(), *STAMP)

    def key(self, row):
        return tuple(row.get(it, "") for it in self.keys)

    def rows(self):
        """Returns the rows that there are."""
        found, head = rows_of(self.path)
        if head and head != self.columns:
            raise ValueError(f"{self.path}:1: the columns are {' '.join(head)}, and not {' '.join(self.columns)}")
        return found

    def put(self, rows, gone=lambda row: False):
        """Puts rows in the place of those of the same keys, and others behind the last whose first key is theirs. Of those that weren't measured anew, `gone` says which are taken out; returns these."""
        fresh, kept, lost = {self.key(it): it for it in rows}, [], []
        for row in self.rows():
            it = fresh.pop(self.key(row), None)
            (kept if it or not gone(row) else lost).append(it or row)
        for row in fresh.values():
            like = [place for place, it in enumerate(kept, 1) if self.key(it)[0] == self.key(row)[0]]
            kept.insert(like[-1] if like else len(kept), row)
        self.write(kept)
        return lost

    def write(self, rows):
        """Writes the file anew, of these rows alone."""
        lines = [self.columns, *([str(row.get(it, "")) for it in self.columns] for row in rows)]
        for row, cells in zip(rows, lines[1:]):
            if set(row) - set(self.columns) or any(re.search(r"[\t\n\r]", it) for it in cells):
                raise ValueError(f"{self.path}: this can't be a row: {row}")
        os.makedirs(os.path.dirname(self.path), exist_ok=True)
        with open(f"{self.path}.new", "w", encoding="utf-8") as it:
            it.write("".join("\t".join(cells) + "\n" for cells in lines))
        os.replace(f"{self.path}.new", self.path)
