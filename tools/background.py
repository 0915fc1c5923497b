#!/usr/bin/env python3
"""The proofs that go on behind a program which was built without them.

  tools/background.py --start PROGRAM    writes on standard error that nothing is proved of the
                                         program, and how many of it and the crates below it are;
                                         has the others proved, if that is not under way
  tools/background.py --stop             ends these proofs. What they proved is kept, and the next
                                         --start goes on with the rest. Proofs that were not begun
                                         so are waited for

They have the lowest priority, and what they say goes to out/proofs.log. Where a crate was refused,
and no source has changed since, --start names it and begins nothing.
"""
import contextlib
import fcntl
import os
import re
import shutil
import signal
import subprocess
import sys
import time

sys.dont_write_bytecode = True
sys.path.insert(0, os.path.dirname(os.path.realpath(__file__)))
from libraries import LOCK, TOP, is_proved, libraries_of_crates, prove_crates, set_time, the_only_run  # noqa: E402
from toolchain import crates_of, toolchain  # noqa: E402

LOG = TOP + "/out/proofs.log"


def is_under_way():
    """Whether crates are being proved in their folders, several side by side."""
    if not os.path.isfile(LOCK):
        return False
    with open(LOCK, encoding="utf-8") as held:
        try:
            fcntl.flock(held, fcntl.LOCK_EX | fcntl.LOCK_NB)
        except BlockingIOError:
            return True
        return False


def refused(rtlib, crates):
    """The crate that the last run in the background refused, where no source has changed since that
    began."""
    if not os.path.isfile(LOG):
        return None
    with open(LOG, encoding="utf-8") as log:
        found = re.search(r"\A(\d+)\n(?:.*\n)*refused: (\w+)\n\Z", log.read())
    files = [TOP + "/crates.txt", *(file for it in crates for file in rtlib.files_of(it.folder))]
    return found[2] if found and all(os.stat(it).st_mtime_ns <= int(found[1]) for it in files) else None


def start(program):
    """Tells how far the proofs are, and has them go on."""
    if not shutil.which("rt"):
        print("NOT PROVED: nothing is proved of this program, and nothing will be without rt.", file=sys.stderr)
        return 0
    rt = toolchain()
    rtlib, crates = rt.rtlib, crates_of(rt, TOP, [program])
    count = "%d of %d crates" % (sum(is_proved(rtlib, it) for it in crates), len(crates))
    bad = None if is_under_way() else refused(rtlib, crates)
    more = "the proof of %s was refused (out/proofs.log)" % bad if bad else "the proofs go on behind it (out/proofs.log)"
    print("NOT PROVED: nothing is proved of this program. By now %s are proved; %s." % (count, more), file=sys.stderr)
    if not bad and not is_under_way():
        how = {"stdin": subprocess.DEVNULL, "stdout": subprocess.DEVNULL, "stderr": subprocess.DEVNULL}
        subprocess.Popen([sys.executable, os.path.realpath(__file__), "--prove", program], start_new_session=True, **how)
    return 0


def prove(program):
    """Proves the program and the crates below it, at a low priority. Of two that begin at once the
    second ends."""
    os.nice(19)
    with contextlib.suppress(BlockingIOError), the_only_run(waits=False) as begun:
        log = os.open(LOG, os.O_WRONLY | os.O_CREAT | os.O_TRUNC, 0o644)
        for it in (1, 2):
            os.dup2(log, it)
        print(begun, flush=True)
        is_well = prove_crates(toolchain(), [program])
        if is_well:
            set_time(program, begun)
        return 0 if is_well else 1
    return 0


def in_background(number):
    """Whether the process of this number proves crates in the background of this repository."""
    try:
        with open("/proc/%s/cmdline" % number, "rb") as it:
            words = it.read().decode("utf-8", "replace").split("\0")
    except OSError:
        return False
    return "--prove" in words and os.path.realpath(__file__) in words


def stop():
    """Ends the proofs in the background, and waits until nothing is proved so."""
    is_told = False
    while is_under_way():
        with open(LOCK, encoding="utf-8") as held:
            number = held.read().strip()
        if in_background(number):
            os.kill(int(number), signal.SIGTERM)
        elif not is_told:
            print("Proofs are under way: they are waited for.", file=sys.stderr, flush=True)
            is_told = True
        time.sleep(0.2)
    return 0


def main(words):
    if words == ["--stop"]:
        return stop()
    if len(words) == 2 and words[0] in ("--start", "--prove") and words[1] in libraries_of_crates():
        return start(words[1]) if words[0] == "--start" else prove(words[1])
    print(__doc__, end="")
    return 2


if __name__ == "__main__":
    sys.exit(main(sys.argv[1:]))
