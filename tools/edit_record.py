"""The record of tried edits: the table of docs/WRONG_BODIES.md. It has a line for each crate, with
two digests of what its edits were tried on: one of the crate's own texts and edits, one of the
texts of the crates below it.
"""
import collections
import hashlib
import os
import re
import sys

from libraries import below, libraries_of_crates

# The edits of the gate, and those outside it.
FOLDERS = ("must-fail", "wrong-bodies")
# What a crate is made of, on which the verdicts of its edits and of those of crates above it rest.
TEXTS = ("src", "specs", "proofs")
TABLE = "/docs/WRONG_BODIES.md"
LINE = re.compile(r"^\| (\w+) \| (\d+) \| (\d+) \| (\d+) \| ([\d-]+) \| (\d+) \| (\w+) \| (\w+) \|$", re.M)


class Line(collections.namedtuple("Line", "crate gate outside refused day seconds own below")):
    """A line of the table: a crate, how many edits it has in the gate and outside, how many of them
    were refused, the day, the seconds that this took, and the two digests."""

    __slots__ = ()

    def __str__(self):
        return "| %s |" % " | ".join(map(str, self))


class Checkout:
    """A checkout of the repository: its crates, their edits, and the digests of both. The texts of
    each crate are read once."""

    def __init__(self, top):
        self.top, self.libraries, self.digests = top, libraries_of_crates(top), {}

    def edits(self, crate):
        """The files of the crate's edits, by what they are named."""
        found = {}
        for folder in FOLDERS:
            place = "%s/crates/%s/%s" % (self.top, crate, folder)
            for name in sorted(os.listdir(place)) if os.path.isdir(place) else []:
                if name.endswith(".edit"):
                    if name in found:
                        stop("%s has two edits of the name %s" % (crate, name))
                    found[name] = place + "/" + name
        return found

    def counts(self, crate):
        """How many edits the crate has in the gate, and how many outside."""
        folders = [os.path.basename(os.path.dirname(it)) for it in self.edits(crate).values()]
        return folders.count(FOLDERS[0]), folders.count(FOLDERS[1])

    def texts(self, crate):
        """A digest of the crate's code, contracts, definitions and proofs, with their paths."""
        if crate not in self.digests:
            top = "%s/crates/%s" % (self.top, crate)
            places = (place for folder in TEXTS for place in os.walk("%s/%s" % (top, folder)))
            files = ("%s/%s" % (at, name) for at, _, names in places for name in names)
            self.digests[crate] = digest({os.path.relpath(it, top): it for it in files})
        return self.digests[crate]

    def own(self, crate):
        """Sixteen digits for the crate's texts and edits, in whichever folder an edit stands."""
        return digits([self.texts(crate), digest(self.edits(crate))])

    def below(self, crate):
        """Sixteen digits for the texts of the crates below."""
        return digits("%s %s" % (it, self.texts(it)) for it in sorted(below([crate], self.libraries)))

    def fault(self, crate, line):
        """Why this line, or none, does not say that all edits of the crate outside the gate were
        refused as the crate itself stands; None where it does."""
        counts = self.counts(crate)
        if line is None:
            return "it has edits outside the gate, and no line" if counts[1] else None
        if not sum(counts):
            return "it has a line, and no edits"
        if int(line.refused) != sum(counts):
            return "%s were refused on %s, and it has %d edits" % (line.refused, line.day, sum(counts))
        if (int(line.gate), int(line.outside)) != counts:
            return "its line has other numbers of edits than %d in the gate and %d outside" % counts
        if line.own != self.own(crate):
            return "its own texts or edits have changed since these were tried on " + line.day
        return None


def stop(why):
    print("wrong-bodies: " + why, file=sys.stderr)
    sys.exit(2)


def digest(files):
    """A digest of these files, and of what they are named."""
    found = hashlib.sha256()
    for name, path in sorted(files.items()):
        with open(path, "rb") as it:
            text = it.read()
        found.update(b"%s %d\n%s" % (name.encode(), len(text), text))
    return found.hexdigest()


def digits(parts):
    return hashlib.sha256("\n".join(parts).encode()).hexdigest()[:16]


def lines_of(file):
    """The lines of the table in a file, by their crates."""
    if not os.path.isfile(file):
        stop("there is no file " + file)
    with open(file, encoding="utf-8") as it:
        return {line[1]: Line(*line.groups()) for line in LINE.finditer(it.read())}


def write_lines(file, lines, are_all=False):
    """Puts these lines into the table, each in place of its crate's earlier one, or at the end.
    Where they are all, the earlier ones go."""
    text, left = "", {it.crate: it for it in lines}
    if os.path.isfile(file):
        with open(file, encoding="utf-8") as it:
            text = it.read()
    if are_all:
        text = re.sub(LINE.pattern + r"\n", "", text, flags=re.M)
    text = LINE.sub(lambda line: str(left.pop(line[1], line[0])), text)
    text += "".join(str(it) + "\n" for it in left.values())
    with open(file, "w", encoding="utf-8") as it:
        it.write(text)


def standing(checkout, file, crates):
    """How many edits of each of these crates were refused by its line in the file, where all were
    and nothing has changed since, in the crate or below it."""
    found = {}
    for crate, line in lines_of(file).items():
        if crate in crates and checkout.fault(crate, line) is None and line.below == checkout.below(crate):
            said = crate, line.refused, line.day
            print("%s: %s refused on %s, and nothing has changed since" % said, flush=True)
            found[crate] = int(line.refused)
    return found


def recorded(checkout, file, named):
    """Says of which of these crates (of all, where none is named) the edits have to be tried, and
    how many of the others' were tried over other texts below. Returns whether none has to be."""
    lines = lines_of(file)
    crates = named or [*checkout.libraries, *(it for it in lines if it not in checkout.libraries)]
    faults = {it: checkout.fault(it, lines.get(it)) for it in crates}
    wanted = [it for it in crates if faults[it]]
    for it in wanted:
        print("%s: %s" % (it, faults[it]))
    untried = [it for it in wanted if sum(checkout.counts(it))]
    if untried:
        print("To be tried: ./wrong-bodies --record %s %s" % (TABLE[1:], " ".join(untried)))
    tried = [lines[it] for it in crates if it in lines and not faults[it]]
    moved = sum(it.below != checkout.below(it.crate) for it in tried)
    print("%d crates have edits tried as they stand, of which %d stand on crates that changed since"
          % (len(tried), moved))
    return not wanted


def carried(before, now, crate, lines):
    """The line of a crate that these lines of an earlier checkout come to. Where one of them did
    not hold there, its digest stays, which is none of today's."""
    own = [it.own for it in lines if before.fault(it.crate, it)]
    under = [it.below for it in lines if it.below != before.below(it.crate)]
    refused = sum(int(it.refused) for it in lines)
    seconds = sum(int(it.seconds) for it in lines)
    digests = [*(own[:1] or [now.own(crate)]), *(under[:1] or [now.below(crate)])]
    return Line(crate, *now.counts(crate), refused, min(it.day for it in lines), seconds, *digests)


def carry(before, now, names):
    """Writes the table of an earlier checkout under the names and with the digests of this one. The
    names are those of crates, the new ones by the old ones."""
    parts = {}
    for line in lines_of(before.top + TABLE).values():
        parts.setdefault(names.get(line.crate, line.crate), []).append(line)
    for crate in parts:
        if crate not in now.libraries:
            stop("crates.txt names no crate %s" % crate)
    lines = [carried(before, now, crate, parts[crate]) for crate in sorted(parts)]
    write_lines(now.top + TABLE, lines, are_all=True)
