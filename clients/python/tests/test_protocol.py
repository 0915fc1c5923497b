"""Every example of docs/PROTOCOL.md, and that what it says of the client is so."""
import os
import re
import select
import subprocess
import time

from support import LIMIT, PROGRAM, TOP, Test

PAGE = TOP + "/docs/PROTOCOL.md"
# How many examples the page has.
EXAMPLES = 17


class Speaker:
    """A program of an example."""

    def __init__(self, words):
        self.process = subprocess.Popen([PROGRAM, *words], stdin=subprocess.PIPE, stdout=subprocess.PIPE, bufsize=0)
        self.has_ended = False

    def say(self, line):
        self.process.stdin.write(re.sub(r"\{(\d+) times (.)\}", lambda it: it[2] * int(it[1]), line).encode("utf-8") + b"\n")

    def line(self):
        """The next line that is printed, or what there is of it when the time has passed."""
        line, until = b"", time.monotonic() + LIMIT
        while not line.endswith(b"\n"):
            if not select.select([self.process.stdout], [], [], until - time.monotonic())[0]:
                return line.decode("ascii") + "(no more within the time)"
            byte = self.process.stdout.read(1)
            if not byte:
                return line.decode("ascii") + "(the end)"
            line += byte
        return line[:-1].decode("ascii")

    def do(self, what):
        if what == "its output is closed":
            self.process.stdout.close()
        elif what == "it is killed":
            self.process.kill()
        else:
            raise ValueError(what)

    def end(self):
        """What is still printed once the input is closed, and how the program ends."""
        self.has_ended = True
        self.process.stdin.close()
        rest = b"" if self.process.stdout.closed else self.process.stdout.read()
        status = self.process.wait(LIMIT)
        self.process.stdout.close()
        return rest, "signal %d" % -status if status < 0 else str(status)


class Examples(Test):
    def play(self, example):
        running = []
        for line in example.splitlines():
            sign, said = line[:1], line[2:]
            if sign == "$":
                self.assertEqual(said.split()[0], "sqlsh")
                running.append(Speaker([self.file if it == "FILE" else it for it in said.split()[1:]]))
            elif sign == ">":
                running[-1].say(said)
            elif sign == "<":
                self.assertEqual(running[-1].line(), said)
            elif sign == "!":
                running[-1].do(said)
            else:
                self.assertEqual((sign, running[-1].end()), ("=", (b"", said)))
        for it in running:
            if not it.has_ended:
                self.assertEqual(it.end(), (b"", "0"))

    def test_each_example_of_the_page(self):
        with open(PAGE, encoding="utf-8") as page:
            examples = re.findall(r"^```exchange\n(.*?)^```$", page.read(), re.M | re.S)
        self.assertEqual(len(examples), EXAMPLES)
        for example in examples:
            with self.subTest(example=example):
                self.play(example)
            if os.path.exists(self.file):
                os.remove(self.file)

    def test_each_rule_has_an_example(self):
        with open(PAGE, encoding="utf-8") as page:
            sections = re.split(r"^## ", page.read().partition("\n## The client for Python")[0], flags=re.M)[1:]
        without = [it.splitlines()[0] for it in sections if "```exchange" not in it]
        # What this one says of reading and writing is how all others are read.
        self.assertEqual(without, ["When answers come"])
