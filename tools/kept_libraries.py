#!/usr/bin/env python3
"""Gives the crates here the libraries that the gate has proved of the same files on this machine, so that `rt check` in a crate's folder begins with these.

  tools/kept_libraries.py [CRATE ..]    all crates that are libraries, or those below these crates. Prints how many it gave, and which are not there

`rt ci NAME ..` proves crates on a copy, from nothing, and keeps them for the gate by the checksums of all that they stand on; a check takes only libraries that another check built.
With this the gate's own proof of a crate serves the checks of the crates above it. A crate's own first check still proves it from nothing. The libraries hold statements alone: a program
is built of them by the gate, and not by a check.
"""
import os
import shutil
import sys

sys.dont_write_bytecode = True
sys.path.insert(0, os.path.dirname(os.path.realpath(__file__)))
from toolchain import toolchain  # noqa: E402

TOP = os.path.dirname(os.path.dirname(os.path.realpath(__file__)))


def is_given(crate, key, rt):
    """Whether the library of this key stands in the crate's folder already."""
    at = crate.folder + "/out/rlib"
    return rt.rtlib.text_of(at + "/gate_key") == key and rt.rtlib.text_of(at + "/stamp") == crate.stamp()


def give(crate, key, kept):
    """Puts the library of this key into the crate's folder, if the gate kept it. Returns whether it did."""
    at = crate.folder + "/out/rlib"
    if not os.path.isdir(kept.place(crate, False, key)):
        return False
    # The files are links to those that are kept, so they are removed and never written.
    shutil.rmtree(at, ignore_errors=True)
    os.makedirs(at)
    if not kept.give(crate, False, key):
        return False
    for name, text in (("gate_key", key), ("stamp", crate.stamp())):
        with open("%s/%s" % (at, name), "w", encoding="utf-8") as it:
            it.write(text)
    return True


def main(words):
    if any(it.startswith("-") for it in words):
        print(__doc__, end="")
        return 2
    rt = toolchain()
    os.chdir(TOP)
    rt.Crate.allowed = rt.handles_of(TOP)
    crates = rt.crates_of(TOP)
    unknown = set(words) - {it.name for it in crates}
    if unknown:
        print("There is no such crate: %s" % " ".join(sorted(unknown)), file=sys.stderr)
        return 2
    wanted = {it.name for crate in crates if not words or crate.name in words for it in (crate.below() if words else [crate])}
    kept, given, lacking = rt.Kept(crates), [], []
    for crate in crates:
        if crate.is_program or crate.name not in wanted:
            continue
        key = kept.key(crate) if all(it.name in kept.rlibs for it in crate.below()) else None
        if key and (is_given(crate, key, rt) or give(crate, key, kept)):
            kept.is_built(crate)
            given.append(crate.name)
        else:
            lacking.append(crate.name)
    print("given: %d" % len(given), *(["not there:"] + lacking if lacking else []))
    return 0


if __name__ == "__main__":
    sys.exit(main(sys.argv[1:]))
