"""Programs of crates of tests: tests/CRATE/program, built without proofs beside copies of the crates below."""
import os
import re
import runpy
import shutil
import sys

TOP = os.path.dirname(os.path.dirname(os.path.realpath(__file__)))
sys.dont_write_bytecode = True
sys.path.insert(0, TOP + "/tools")
from toolchain import crates_of, toolchain  # noqa: E402
from unproved import keep_module, link_module  # noqa: E402

ENDING = ".txt"


def lay_out(room, tests, name, sources, more):
    """The program's files and these sources of its crate of tests, beside copies of the crates below it and of those more."""
    of_tests = runpy.run_path(TOP + "/tools/tests")
    libraries = of_tests["table"]("libraries.txt")
    of_tests["lay_out"](room, [tests], {**libraries, tests: libraries[tests] + list(more)})
    shutil.copy(TOP + "/HANDLES", room)
    folder = "%s/crates/%s/src" % (room, name)
    os.makedirs(folder)
    for source in sources:
        shutil.copy("%s/crates/%s/src/%s" % (room, tests, source), folder)
    for source in os.listdir("%s/tests/%s/program" % (TOP, tests)):
        shutil.copy("%s/tests/%s/program/%s" % (TOP, tests, source), "%s/%s" % (folder, source[:-len(ENDING)]))
    with open(room + "/crates.txt", encoding="utf-8") as it:
        lines = it.read()
    with open(room + "/crates.txt", "w", encoding="utf-8") as it:
        it.write(re.sub("^%s:" % tests, name + ":", lines, flags=re.M))


def built(room, tests, name, sources, more=()):
    """The path of the program of this crate of tests, built in the room by this name; None where it could not be built."""
    lay_out(room, tests, name, sources, more)
    rt = toolchain()
    crate, place = crates_of(rt, room, [name])[-1], room + "/built"
    os.makedirs(place)
    said = keep_module(rt.rtlib, crate, place)
    if said is not None:
        print(said, end="", file=sys.stderr)
        return None
    return place + "/program" if link_module(rt.rtlib, place) else None
