"""The packs of wrong bodies, as bench/bodies and .ci/edits read them: each file NAME.edit of crates/CRATE/must-fail/, which the gate tries, and of crates/CRATE/bodies/, which
it doesn't. A pack has for each body a head, and below it the pairs that put it in:

    # NAME: FUNCTION at GOAL
    # elsewhere: WHAT ELSE FINDS IT
    file: A FILE OF THE CRATE
    old: TEXT
    new: TEXT

with the function's path in the crate, and the goal as the report of `rt check` names it. The second line stands where the body isn't refused by itself at that goal. A pack has
at most one body of a function."""
import collections
import functools
import glob
import hashlib
import os
import re

FOLDERS = ("must-fail", "bodies")
PARTS = ("src", "specs", "proofs")
HEAD = re.compile(r"# (\w+): (\S+) at (\S+)$")
ELSEWHERE = "# elsewhere: "
# What a line that is only a comment begins with.
COMMENTS = {".rt": "//", ".antt": "--"}

Pair = collections.namedtuple("Pair", "file old new")
Body = collections.namedtuple("Body", "name function goal elsewhere pairs")


class Pack:
    """A file of wrong bodies."""

    def __init__(self, top, path):
        self.top, self.path = top, path
        _, self.crate, self.folder, self.name = path.split("/")
        self.text = text_of(f"{top}/{path}")
        self.bodies, self.faults = [], []
        self.read()

    def read(self):
        """Reads the bodies, and what is wrong with the pack as it stands."""
        file = old = None
        for line in self.text.splitlines():
            head, (word, _, rest) = HEAD.match(line), line.partition(":")
            if head:
                self.bodies.append(Body(*head.groups(), "", []))
                file = old = None
            elif line.startswith(ELSEWHERE) and self.bodies:
                self.bodies[-1] = self.bodies[-1]._replace(elsewhere=line[len(ELSEWHERE) :].strip())
            elif word in ("file", "old", "new") and not self.bodies:
                self.faults.append(f"`{line.strip()}` stands above any head of a body")
                return
            elif word == "file":
                file = rest.strip()
            elif word == "old":
                old = rest[1:]
            elif word == "new" and (file is None or old is None):
                self.faults.append(f"{self.bodies[-1].name}: a `new:` stands before any `file:` or `old:`")
            elif word == "new":
                self.bodies[-1].pairs.append(Pair(file, old, rest[1:]))
                old = None
        self.faults += [f"{it.name} has no pair" for it in self.bodies if not it.pairs]
        self.faults += [f"{it.name} changes nothing" for it in self.bodies for pair in it.pairs if pair.old == pair.new]
        for what, names in (("turned", [it.function for it in self.bodies]), ("named", [it.name for it in self.bodies])):
            self.faults += [f"{it} is {what} {count} times" for it, count in collections.Counter(names).items() if count > 1]

    def turned(self):
        """Returns the texts of the files that the pack changes, by path in the crate, and which pairs can't be applied one after another."""
        texts, stale = {}, []
        for body in self.bodies:
            for file, old, new in body.pairs:
                if file not in texts and not os.path.isfile(f"{self.top}/crates/{self.crate}/{file}"):
                    stale.append(f"{body.name}: there is no file {file}")
                    continue
                text = texts.get(file) or text_of(f"{self.top}/crates/{self.crate}/{file}")
                if text.count(old) != 1:
                    stale.append(f"{body.name}: `{old.strip()}` stands {text.count(old)} times in {file}, and not once")
                texts[file] = text.replace(old, new)
        return texts, stale

    def sum(self):
        """Returns the sum of what the result of trying it rests on in its crate: the sources, and its own text."""
        return sum_of([*sources(self.top, self.crate, PARTS), self.text])

    def sum_tried(self):
        """Returns the sum of what a report of it rests on: the sources of its crate and of those below, and its pairs."""
        pairs = [text for body in self.bodies for pair in body.pairs for text in pair]
        return sum_of([text for it in [self.crate, *below(self.top, self.crate)] for text in sources(self.top, it, PARTS)] + pairs)


def text_of(path):
    with open(path, encoding="utf-8") as it:
        return it.read()


def sum_of(texts):
    return hashlib.sha256("\0".join(texts).encode()).hexdigest()[:16]


def without_comments(path):
    """Returns a source's path and text without the lines that are empty or only a comment."""
    mark = COMMENTS[os.path.splitext(path)[1]]
    return "\n".join(it for it in text_of(path).splitlines() if it.strip() and not it.strip().startswith(mark))


@functools.lru_cache(None)
def sources(top, crate, parts):
    """Returns the sources of a crate, each as its path with its text, comments apart."""
    folder = f"{top}/crates/{crate}"
    files = [it for part in parts for it in glob.glob(f"{folder}/{part}/**/*", recursive=True) if os.path.splitext(it)[1] in COMMENTS]
    return [f"{os.path.relpath(it, folder)}\n{without_comments(it)}" for it in sorted(files)]


@functools.lru_cache(None)
def stands_on(top):
    """Returns of each crate the crates of the repository that it stands on by its line, lowest first."""
    lines = [it.partition("#")[0].partition(":") for it in text_of(f"{top}/crates.txt").splitlines()]
    deps = {it[0].split()[0]: it[2].split() for it in lines if it[1]}
    return {crate: [it for it in named if it in deps] for crate, named in deps.items()}


def below(top, crate):
    """Returns the crates of the repository below a crate, lowest first."""
    named, found = stands_on(top), []

    def go(it):
        for dep in named[it]:
            go(dep)
            if dep not in found:
                found.append(dep)

    go(crate)
    return found


@functools.lru_cache(None)
def sum_below(top, crate):
    """Returns the sum of what stands below a crate: what the crates there say."""
    return sum_of([f"{it}\n{text}" for it in sorted(below(top, crate)) for text in sources(top, it, ("src", "specs"))])


def all_packs(top, crates=()):
    """Returns the packs, or those of some crates, by crate and name."""
    paths = [os.path.relpath(it, top) for folder in FOLDERS for it in glob.glob(f"{top}/crates/*/{folder}/*.edit")]
    return [Pack(top, it) for it in sorted(paths) if not crates or it.split("/")[1] in crates]
