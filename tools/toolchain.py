#!/usr/bin/env python3
"""The toolchain's command as a module that computes each digest of a crate once in a run.

  tools/toolchain.py WORD ..    is `rt WORD ..` so

The toolchain computes the digest of a crate, and the list of all that is below it, by a recursion
over crates.txt that remembers nothing: as often as there are ways down to each crate.
"""
import contextlib
import importlib.machinery
import os
import shutil
import sys
import threading
import types

DIGESTS, PROVED_NOW = {}, threading.local()


def toolchain():
    """The toolchain's command, as a module; its own module `rtlib` has the crates."""
    found = shutil.which("rt")
    if not found:
        sys.exit("The Rattle toolchain's command rt has to be on the path.")
    module = types.ModuleType("toolchain")
    module.__file__ = os.path.realpath(found)
    importlib.machinery.SourceFileLoader("toolchain", module.__file__).exec_module(module)
    keep_digests(module.rtlib.Crate)
    return module


def keep_digests(crate_type):
    """Has the digest of each crate kept by its folder, and the list of the crates below it by the
    crate."""
    stamp, below = crate_type.stamp, crate_type.below

    def kept_stamp(crate):
        if crate.folder not in DIGESTS or getattr(PROVED_NOW, "crate", None) is crate:
            DIGESTS[crate.folder] = stamp(crate)
        return DIGESTS[crate.folder]

    def kept_below(crate):
        if "crates_below" not in vars(crate):
            crate.crates_below = below(crate)
        return crate.crates_below

    crate_type.stamp, crate_type.below = kept_stamp, kept_below


@contextlib.contextmanager
def read_anew(crate):
    """Here, in this thread, the crate's digest is computed each time of its files as they are, over
    the kept ones of the crates below it: the toolchain compares one from before a proof with one
    from after it."""
    PROVED_NOW.crate = crate
    try:
        yield
    finally:
        PROVED_NOW.crate = None


def crates_of(rt, top, names):
    """These crates of the repository and those below them, each after those on which it stands."""
    known, found = {}, []
    # A program's digest has also what its files say of how it is run.
    read_files = getattr(rt, "read_files", lambda crate: None)
    for name in names:
        folder = "%s/crates/%s" % (top, name)
        if folder not in known:
            known[folder] = rt.rtlib.Crate(folder, top, known)
            read_files(known[folder])
        found += [it for it in [*known[folder].below(), known[folder]] if it not in found]
    return found


if __name__ == "__main__":
    sys.exit(toolchain().main(sys.argv[1:]))
