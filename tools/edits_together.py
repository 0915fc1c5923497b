#!/usr/bin/env python3
"""Tries wrong bodies in groups: edits of different functions by one check, each judged by the goals of its own function.

  tools/edits_together.py [--outside] CRATE ..    tries the edits of must-fail/ and wrong-bodies/ of these crates, or of
                                                  wrong-bodies/ alone, over the work that `rt check` kept in the crate's
                                                  out/; so each crate has to be proved first. Prints a line for each edit;
                                                  the last line is 'N refused, M not refused'. CRATE/NAME,NAME tries these
                                                  edits of the crate alone. With --proved, whoever calls it has just proved
                                                  these crates as they stand, and that is not done once more

./wrong-bodies does this for each crate, once it has proved it. An edit counts as refused where a goal of
its function stays open whose line does not only say that a proof file names what the edit took away. What is not told
apart in a group (a function that calls another edited one, an edit of no function) is tried again with the rest, and at
last by itself. Each check works over a copy of its own of what was kept; nothing counts where the crate as it stands is
not proved over such a copy. After each crate its line for docs/WRONG_BODIES.md is printed, with the
two digests of what was tried.
GROUP=N in the environment tries N edits at a time, 16 where it is not given.
"""
import contextlib
import os
import re
import runpy
import shutil
import sys
import tempfile
import time

TOP = os.path.dirname(os.path.dirname(os.path.realpath(__file__)))
sys.dont_write_bytecode = True
sys.path.insert(0, TOP + "/tools")
from edit_record import FOLDERS, Checkout, Line  # noqa: E402
from toolchain import keep_digests  # noqa: E402

FUNCTION = re.compile(r"^(\s*)(?:pub(?:\([a-z]+\))? )?(?:const )?(?:unsafe )?fn (\w+)")
# What the toolchain says where an edit took away what a proof file names, and of what rests on such a proof; and what it says of an edit that is tried by itself, which is
# cut short: where no more than a name can be read, the edit counts as not refused, and somebody has to look.
TOOK_A_NAME = re.compile(r"(note: )?(\./)?proofs/.*(has no field|is not in scope|has no `|was not admitted|record `[^`]*` \(nearest: |which was rejected, w(as|ere) not checked)")
ONLY_A_NAME = re.compile(r"refused, as it must be: \S*proofs/\S+ error: (`[^`]*`: (?:record )?`[^`]*(`( \(nearest: .*)?)?\s*$|\d+ declarations? that depends? on )")
IN_CODE = re.compile(r"(?:note: )?(?:what antt said of a `search` in the proof that rattle made: )?(?:\./)?(src/\S+?):(\d+):\d+: (.*)")
IN_PROOF = re.compile(r"(?:note: )?(?:\./)?proofs/(\S+?):\d+:\d+: (.*)")


class Function:
    """A function of a file, with the lines that it takes, its attributes and docs among them: a goal may stand at the first of these."""

    def __init__(self, name, first, last):
        self.name, self.first, self.last = name, first, last


def functions_of(text):
    """The functions of a text, each from its head to the brace that ends its body."""
    lines, found = text.split("\n"), []
    for at, line in enumerate(lines):
        head = FUNCTION.match(line)
        if head:
            ends = (it for it in range(at, len(lines)) if lines[it] in (head[1] + "}", head[1] + "{}") or it == at and line.endswith("{}"))
            first = next(it for it in range(at, -1, -1) if it == 0 or not lines[it - 1].strip() or lines[it - 1].endswith(("{", "}", ";")))
            found.append(Function(head[2], first + 1, next(ends, at) + 1))
    return found


class Edit:
    """An edit, and the one function that it changes, where it changes one."""

    def __init__(self, path, folder):
        self.path, self.name, self.pairs, file, old = path, os.path.basename(path), [], "", ""
        with open(path, encoding="utf-8") as it:
            for line in it.read().split("\n"):
                if line.startswith("file: "):
                    file = line[len("file: "):].strip()
                elif line.startswith("old: "):
                    old = line[len("old: "):]
                elif line.startswith("new:"):
                    new = line[len("new:"):]
                    self.pairs.append((file, old, new[1:] if new.startswith(" ") else new))
        places = {self.place(folder, *pair) for pair in self.pairs}
        self.file, self.first, self.last, self.function = places.pop() if len(places) == 1 else ("", 0, 0, "")

    @staticmethod
    def place(folder, file, old, _new):
        """The function in which the old text stands."""
        with open("%s/%s" % (folder, file), encoding="utf-8") as it:
            text = it.read()
        line = text[:max(text.find(old), 0)].count("\n") + 1
        within = [it for it in functions_of(text) if it.first <= line <= it.last]
        if not file.startswith("src/") or not within:
            return "", 0, 0, ""
        return file, within[-1].first, within[-1].last, within[-1].name

    def applied(self, texts, folder):
        """The texts with this edit too, or None where an old text does not stand there once."""
        made = dict(texts)
        for file, old, new in self.pairs:
            if file not in made:
                with open("%s/%s" % (folder, file), encoding="utf-8") as it:
                    made[file] = it.read()
            if made[file].count(old) != 1:
                return None
            made[file] = made[file].replace(old, new)
        return made

    def faults(self, output):
        """The lines of a check that say that the compiler, the borrow checker or the reader of contracts refuses this edit's function."""
        codes = filter(None, map(IN_CODE.match, output.split("\n")))
        return [it[0] for it in codes if it[3].startswith("error") and it[1] == self.file and self.first <= int(it[2]) <= self.last]

    def told(self, output):
        """The lines of a check that say that something of this edit's function is not proved."""
        module = [it for it in self.file[len("src/"):-len(".rt")].split("/") if it not in ("lib", "main", "mod")]
        found, lines = [], output.split("\n")
        for line, after in zip(lines, [*lines[1:], ""]):
            code, proof = IN_CODE.match(line), IN_PROOF.match(line)
            # what is wrong with a long name is said on the next line
            line += after if line.endswith("`") and after.startswith("  ") else ""
            if code:
                is_goal = line.startswith("note: ") or code[3].startswith("error")
                if is_goal and code[1] == self.file and self.first <= int(code[2]) <= self.last:
                    found.append(line)
            elif proof and proof[2].startswith("error"):  # a note there says of a term that it is large, and of no goal that it is open
                parts = proof[1].split("/")
                if any(it.startswith("+") for it in parts):
                    # the proofs of a cycle stand in one file, each goal under the name of its function, with its module before it or without
                    goal = re.search(r"`(?:[\w+-]*-)?((?:\w+::)*)%s-" % re.escape(self.function), proof[2])
                    if goal and (not goal[1] or set(module) <= set(goal[1].split("::"))):
                        found.append(line)
                elif self.function in parts and set(module) <= set(parts):
                    found.append(line)
        return found


class Trial:
    """The edits of one crate, tried over the work that its check kept."""

    def __init__(self, toolchain, crate, folders, wanted):
        self.toolchain, self.crate, self.verdicts = toolchain, crate, {}
        self.folder, checkout = crate.folder, Checkout(TOP)
        self.digests = checkout.own(crate.name), checkout.below(crate.name)
        paths = ("%s/%s" % (crate.folder, it) for it in folders)
        files = ("%s/%s" % (at, name) for at in paths if os.path.isdir(at) for name in sorted(os.listdir(at)) if name.endswith(".edit"))
        self.edits = [Edit(it, crate.folder) for it in files if not wanted or os.path.basename(it)[:-len(".edit")] in wanted]

    def say(self, edit, refused, why):
        self.verdicts[edit.name] = refused
        print("%s/%s: %s: %s" % (self.crate.name, edit.name, "refused" if refused else "NOT REFUSED", why[:200]), flush=True)

    def group(self, left, most):
        """Edits of different functions, with the texts that they make together."""
        chosen, texts, taken = [], {}, set()
        for edit in left:
            key = edit.file, edit.first
            made = None if key in taken or len(chosen) == most else edit.applied(texts, self.folder)
            if made is not None:
                chosen, texts, taken = [*chosen, edit], made, {*taken, key}
        return chosen, texts

    @contextlib.contextmanager
    def kept(self):
        """A copy of what the crate's own check kept, for one check: this drops the proofs of what was edited, which the next one would have to make again."""
        with tempfile.TemporaryDirectory(prefix="edits-") as room:
            yield shutil.copytree(self.folder + "/out/incremental", room + "/kept")

    def check(self, texts):
        """Checks the crate with these texts in place of its own."""
        with self.kept() as kept:
            return self.toolchain["checked"](self.crate, texts, ["--jobs", "1"], kept)

    def try_group(self, edits, texts):
        """Judges those of the edits that one check tells apart."""
        ran = self.check(texts)
        if not ran.stdout.rstrip("\n").split("\n")[-1].startswith("logic="):
            for edit in edits:
                for fault in edit.faults(ran.stdout)[:1]:
                    self.say(edit, False, "it did not reach the prover: " + fault)
            return
        for edit in edits:
            goal = next((it for it in edit.told(ran.stdout) if not TOOK_A_NAME.match(it)), None)
            if goal:
                self.say(edit, True, goal)

    def try_alone(self, edit):
        with self.kept() as kept:
            kind, said = self.toolchain["must_fail"](self.crate, edit.path, ["--jobs", "1"], kept)
        # Some kits answer with whether it was refused, others with a word.
        is_refused = kind in ([self.toolchain[it] for it in ("REFUSED", "AT_LIMIT") if it in self.toolchain] or [True])
        self.say(edit, is_refused and "only because a proof file names" not in said and not ONLY_A_NAME.search(said), said)

    def run(self, most, is_proved):
        """Tries all edits over copies of the kept work, over which the crate itself has to be proved, where that was not done just now."""
        self.try_edits(most)
        if not is_proved and self.check({}).returncode:
            print("%s: is not proved over that work as it stands, so nothing was tried" % self.crate.name, flush=True)
            self.verdicts = {name: False for name in self.verdicts}

    def line(self, seconds):
        """The crate's line in the table of wrong bodies, with the digests of what was tried."""
        counts = [sum("/%s/" % folder in it.path for it in self.edits) for folder in FOLDERS]
        refused = sum(self.verdicts.values())
        return Line(self.crate.name, *counts, refused, time.strftime("%F"), round(seconds), *self.digests)

    def try_edits(self, most):
        left = [it for it in self.edits if it.file]
        while left:
            chosen, texts = self.group(left, most)
            if len(chosen) < 2:
                break
            before = len(self.verdicts)
            self.try_group(chosen, texts)
            left = [it for it in left if it.name not in self.verdicts]
            if len(self.verdicts) == before:
                most = len(chosen) // 2
            else:
                # those that were not told apart go first next time
                left.sort(key=lambda it: it not in chosen)
        for edit in self.edits:
            if edit.name not in self.verdicts:
                self.try_alone(edit)


def main(words):
    folders = FOLDERS[1:] if "--outside" in words else FOLDERS
    names = [it for it in words if not it.startswith("-")]
    if not names or any(it in ("-h", "--help") for it in words):
        print(__doc__, end="")
        return 0 if words else 2
    toolchain = runpy.run_path(os.path.realpath(shutil.which("rt")), run_name="toolchain")
    keep_digests(toolchain["rtlib"].Crate)
    os.chdir(TOP)
    crates = {it.name: it for it in toolchain["rtlib"].crates_below(TOP)}
    verdicts = []
    for word in names:
        name, _, some = word.partition("/")
        if name not in crates or not os.path.isdir(crates[name].folder + "/out/incremental"):
            print("%s: there is no such crate, or `rt check` has not proved it yet" % name, file=sys.stderr)
            return 2
        trial, begun = Trial(toolchain, crates[name], folders, some.split(",") if some else []), time.monotonic()
        trial.run(int(os.environ.get("GROUP", "16")), "--proved" in words)
        if not some:
            print(trial.line(time.monotonic() - begun), flush=True)
        verdicts += trial.verdicts.values()
    print("%d refused, %d not refused" % (sum(verdicts), len(verdicts) - sum(verdicts)))
    return 0 if all(verdicts) else 1


if __name__ == "__main__":
    sys.exit(main(sys.argv[1:]))
