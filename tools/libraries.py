#!/usr/bin/env python3
"""The crates of the repository, and the proof of those below some of them, several side by side.

  tools/libraries.py CRATE ..    proves the libraries below these crates, each in its folder, and
                                 of these crates the programs, which it also builds

Only what is not proved as it stands is proved: what is new, was changed, or stands on what was.
How many crates that are is said first, and about how long they take. The status is 0 where all are
proved, 1 where one was refused, and 2 where a word names no crate. A second such run waits until
the first has ended. What the toolchain says of a crate goes to out/proofs/CRATE.log.

The toolchain's own command for one crate proves the libraries below it one after another. Here
each is proved as soon as those below it are, first the one with the longest way to the top. JOBS=N
in the environment proves N at a time.
"""
import contextlib
import fcntl
import functools
import os
import re
import shutil
import signal
import sys
from concurrent.futures import FIRST_COMPLETED, ThreadPoolExecutor, wait

sys.dont_write_bytecode = True
sys.path.insert(0, os.path.dirname(os.path.realpath(__file__)))
from toolchain import crates_of, read_anew, toolchain  # noqa: E402

TOP = os.path.dirname(os.path.dirname(os.path.realpath(__file__)))
# What one check takes, in bytes, where it takes much.
MEMORY_OF_A_CHECK = 4 * 1024 ** 3
# The processor minutes that the proof of sqlsh and all below it took, on a fast machine and on a
# slow one (2026-11-26), and the lines that they had, counted as in `lines_of`.
MINUTES, LINES = (158, 216), 67288
# Held by whoever proves crates in their folders, with the number of its process.
LOCK = TOP + "/out/proofs.lock"
# What the toolchain said of each crate there.
LOGS = TOP + "/out/proofs"
TARGET = "x86_64-unknown-linux-gnu"


def libraries_of_crates(top=TOP):
    """Of each crate, in the order of crates.txt, the libraries that its line names."""
    return {name: line.partition(":")[2].split() for name, line in lines_of_crates(top).items()}


def lines_of_crates(top=TOP):
    """The line of each crate in crates.txt, in their order."""
    with open(top + "/crates.txt", encoding="utf-8") as lines:
        entries = (line.partition("#")[0].strip() for line in lines)
        return {re.match(r"\w+", line)[0]: line for line in entries if line}


def below(crates, libraries):
    """The crates of the repository on which these stand."""
    found, more = set(), list(crates)
    while more:
        new = {it for it in libraries[more.pop()] if it in libraries} - found
        found |= new
        more += new
    return found


def at_a_time():
    """How many checks there is room for: JOBS of the environment, or as many as there are
    processors, and fewer where memory is short."""
    given = os.environ.get("JOBS", "")
    if given.isdigit() and int(given):
        return int(given)
    with open("/proc/meminfo") as it:
        free = 1024 * int(re.search(r"MemAvailable:\s+(\d+)", it.read()).group(1))
    return max(1, min(len(os.sched_getaffinity(0)), free // MEMORY_OF_A_CHECK))


def copy_crate(room, crate, kept=()):
    """Copies what the crate is made of into the room, and these folders of its out/, if they are
    all there and it is proved already."""
    whole, part = "%s/crates/%s" % (TOP, crate), "%s/crates/%s" % (room, crate)
    shutil.copytree(whole, part, ignore=shutil.ignore_patterns("out"))
    if os.path.isfile(whole + "/out/rlib/stamp") and all(os.path.isdir("%s/out/%s" % (whole, it)) for it in kept):
        for it in kept:
            shutil.copytree("%s/out/%s" % (whole, it), "%s/out/%s" % (part, it), symlinks=True)


def list_crates(room, crates):
    lines = lines_of_crates()
    with open(room + "/crates.txt", "w", encoding="utf-8") as it:
        it.writelines(lines[name] + "\n" for name in crates)


def lines_of(crate):
    """The lines of code that stand for the work of the crate's proof: each crate costs some by
    itself."""
    return 300 + crate.count(rb"\n")


def ways_up(crates):
    """Of each crate the lines of code on the longest way from it to the top, itself counted."""
    found = {}
    for crate in sorted(crates, key=lambda it: -len(it.below())):
        above = (found[it.name] for it in crates if crate in it.deps)
        found[crate.name] = lines_of(crate) + max(above, default=0)
    return found


def prove(crate, log):
    """Proves a crate, and builds it where it is a library. What the toolchain says stands in the
    log. Returns whether it is proved."""
    with open(log, "w", encoding="utf-8") as crate.out:
        status = crate.check(["--jobs", "1"]) if crate.is_program else crate.build_rlib(["--jobs", "1"], False)
        return status == 0


def prove_all(crates, room, tell, afterwards=None, takes=None, prove=prove, proved=()):
    """Proves these crates but for those that are proved, each once those below it are, and does for
    each what comes afterwards, where no other waits to be proved: first where that takes longest.
    Returns the one that was refused first, if any."""
    ways, proved, refused, running, behind = ways_up(crates), set(proved), None, {}, []
    left = sorted((it for it in crates if it.name not in proved), key=lambda it: -ways[it.name])
    lanes = at_a_time()
    with ThreadPoolExecutor(lanes) as pool:
        while running or behind or left and refused is None:
            ready = [it for it in left if all(below.name in proved for below in it.below())] if refused is None else []
            for crate in ready[:lanes - len(running)]:
                left.remove(crate)
                running[pool.submit(prove, crate, "%s/%s.log" % (room, crate.name))] = crate
            behind.sort(key=takes)
            while behind and len(running) < lanes:
                running[pool.submit(afterwards, behind.pop())] = None
            for done in wait(running, return_when=FIRST_COMPLETED).done:
                crate, is_proved = running.pop(done), done.result()
                if crate and is_proved:
                    proved.add(crate.name)
                    tell(crate.name)
                    behind += [crate.name] if afterwards else []
                elif crate:
                    refused = refused or crate
    return refused


def show(room, refused):
    """Shows the end of what the toolchain said of the crate that was refused."""
    with open("%s/%s.log" % (room, refused.name), encoding="utf-8") as log:
        print("".join(log.readlines()[-40:]), file=sys.stderr)


def build(room, wanted, tell=lambda name: None, afterwards=None, takes=lambda name: 0):
    """Proves these libraries, whose copies stand in the room, where that is not done, and does for
    each what comes afterwards; `takes` says how long that is. Tells of each once it is proved.
    Returns whether all are."""
    shutil.copy(TOP + "/HANDLES", room)
    list_crates(room, wanted)
    rt = toolchain()
    # It sets a signal's handler, which only the main thread may.
    rt.rtlib.guarded()
    refused = prove_all(crates_of(rt, room, wanted), room, tell, afterwards, takes)
    if refused:
        show(room, refused)
    return not refused


def is_proved(rtlib, crate):
    """Whether the crate is proved as it stands, and its library or program is built."""
    if not crate.is_program:
        return crate.is_built()
    program = "%s/out/%s" % (crate.folder, crate.name)
    return rtlib.text_of(program + ".stamp") == crate.stamp() + rtlib.sum_of(program)


def build_program(rtlib, crate):
    """Proves, compiles and links a program, and leaves what the toolchain does, which by that knows
    it for built. Returns the status."""
    program, digest, kit = "out/" + crate.name, crate.stamp(), rtlib.KIT
    status = crate.compile(["--jobs", "1"], program + ".o")
    words = ["--target", TARGET, "--toolchain", kit + "/toolchain", "-o", program + ".new", program + ".o"]
    status = status or crate.call(kit + "/bin/rattle-link", *words, kit + "/c/libos_c.a", kit + "/c/liblibc_c.a")
    if status == 0 and digest == crate.stamp():
        at = "%s/%s" % (crate.folder, program)
        os.replace(at + ".new", at)
        with open(at + ".stamp", "w", encoding="utf-8") as it:
            it.write(digest + rtlib.sum_of(at))
    return status


def prove_here(rtlib, crate, log):
    """Proves a crate in its folder, where no other run does that just now, and builds it. Returns
    whether it is proved as it stands."""
    held = os.open(crate.folder, os.O_RDONLY)
    try:
        # The toolchain locks the folders of crates so; some file systems have no locks.
        with contextlib.suppress(OSError):
            fcntl.flock(held, fcntl.LOCK_EX)
        with open(log, "w", encoding="utf-8") as crate.out, read_anew(crate):
            if is_proved(rtlib, crate):
                return True
            os.makedirs(crate.folder + "/out", exist_ok=True)
            status = build_program(rtlib, crate) if crate.is_program else crate.build_rlib(["--jobs", "1"], False)
            if status == 0 and not is_proved(rtlib, crate):
                print("%s was changed while it was proved" % crate.name, file=crate.out)
            return status == 0 and is_proved(rtlib, crate)
    finally:
        os.close(held)


def minutes(left):
    """About how many minutes of the clock the proofs of the crates that are left take, on a fast
    machine and on a slow one."""
    lanes, work = at_a_time(), sum(map(lines_of, left))
    # Of several lanes some stand still now and then.
    lines = max(*ways_up(left).values(), work / lanes * (1.1 if lanes > 1 else 1))
    return [max(1, round(it * lines / LINES)) for it in MINUTES]


def prove_crates(rt, names, hint=""):
    """Proves in their folders these crates and those below them, where they are not proved as they
    stand. Returns whether all are."""
    # Python would wait for the proofs that run.
    signal.signal(signal.SIGINT, signal.SIG_DFL)
    rtlib = rt.rtlib
    rtlib.guarded()
    crates = crates_of(rt, TOP, names)
    left = [it for it in crates if not is_proved(rtlib, it)]
    if not left:
        return True
    words = (len(crates), len(left), *minutes(left), at_a_time())
    print("Of %d crates %d have to be proved first: about %d to %d minutes, %d at a time." % words,
          hint, sep="", file=sys.stderr, flush=True)
    proved = {it.name for it in crates} - {it.name for it in left}

    def tell(name):
        proved.add(name)
        print("proved %s (crate %d of %d)" % (name, len(proved), len(crates)), file=sys.stderr,
              flush=True)

    os.makedirs(LOGS, exist_ok=True)
    refused = prove_all(crates, LOGS, tell, prove=functools.partial(prove_here, rtlib), proved=set(proved))
    if refused:
        show(LOGS, refused)
        print("refused: %s" % refused.name, file=sys.stderr)
    return not refused


@contextlib.contextmanager
def the_only_run(waits=True):
    """Here no other run proves crates so; one that does now is waited for, or is a BlockingIOError.
    Gives the time at which it began, in nanoseconds."""
    os.makedirs(os.path.dirname(LOCK), exist_ok=True)
    with open(LOCK, "a+", encoding="utf-8") as held:
        try:
            fcntl.flock(held, fcntl.LOCK_EX | fcntl.LOCK_NB)
        except BlockingIOError:
            if not waits:
                raise
            print("Proofs are under way already (out/proofs.log): they are waited for.",
                  file=sys.stderr, flush=True)
            fcntl.flock(held, fcntl.LOCK_EX)
        held.truncate(0)
        held.write("%d\n" % os.getpid())
        held.flush()
        yield os.stat(LOCK).st_mtime_ns


def set_time(name, begun):
    """Gives a program that is built the time at which the run began: a source that was changed
    since is newer."""
    program = "%s/crates/%s/out/%s" % (TOP, name, name)
    if os.path.isfile(program):
        os.utime(program, ns=(begun, begun))


def main(words):
    unknown = set(words) - set(libraries_of_crates())
    if not words or unknown:
        print(__doc__, end="")
        return 2
    programs = [it for it in words if os.path.isfile("%s/%s" % (TOP, it))]
    hint = "\nTo start at once, with nothing proved: ./%s --unproved .." % programs[0] if programs else ""
    with the_only_run() as begun:
        is_well = prove_crates(toolchain(), words, hint)
        for name in words if is_well else []:
            set_time(name, begun)
    return 0 if is_well else 1


if __name__ == "__main__":
    sys.exit(main(sys.argv[1:]))
