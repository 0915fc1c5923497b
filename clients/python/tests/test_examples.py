"""The program of examples/ that keeps records, and the lines that the pages show."""
import os
import re
import subprocess
import sys

from support import PACKAGE, PROGRAM, TOP, Test, side_by_side

sys.path.insert(0, TOP + "/examples")
import measurements  # noqa: E402

THREADS, ADDITIONS = 4, 15


def environment():
    """That of a program that finds the client, and this build of the engine."""
    return {**os.environ, "PYTHONPATH": PACKAGE, "SQLSH": PROGRAM, "PYTHONDONTWRITEBYTECODE": "1"}


class Measurements(Test):
    def run_it(self, *words):
        command = [sys.executable, TOP + "/examples/measurements.py", *words]
        ran = subprocess.run(command, env=environment(), stdout=subprocess.PIPE, stderr=subprocess.PIPE, timeout=60, universal_newlines=True)
        return ran.returncode, ran.stdout, ran.stderr

    def test_what_it_prints(self):
        self.assertEqual(self.run_it(self.file, "add", "kitchen", "21", "-3", "22"), (0, "3 added\n", ""))
        self.assertEqual(self.run_it(self.file, "add", "attic's", "5"), (0, "1 added\n", ""))
        self.assertEqual(self.run_it(self.file, "add", "kitchen", "19"), (0, "1 added\n", ""))
        report = "attic's: 1 measurements, from 5 to 5, the last 5\nkitchen: 4 measurements, from -3 to 22, the last 19\n"
        self.assertEqual(self.run_it(self.file, "report"), (0, report, ""))
        self.assertEqual(self.run_it(self.file, "last", "kitchen", "2"), (0, "4: 19\n3: 22\n", ""))

    def test_what_it_refuses(self):
        for words, said in (
            (("add", "", "5"), "measurements: 23000 NAMED: a constraint is violated\n"),
            (("add", "kitchen", str(2 ** 63)), "measurements: an integer of a parameter is outside 64 bits\n"),
            (("add", "é", "5"), "measurements: a text of a parameter has a character that is not printable ASCII\n"),
            (("forget",), "measurements: unknown command\n"),
        ):
            with self.subTest(words=words):
                self.assertEqual(self.run_it(self.file, *words), (1, "", said))
        self.connect(self.file)
        status, _, said = self.run_it(self.file, "report")
        self.assertEqual((status, said[:20]), (1, "measurements: X0002:"))

    def test_many_add_at_once(self):
        os.environ["SQLSH"] = PROGRAM
        self.addCleanup(os.environ.pop, "SQLSH")
        connections = [measurements.open_log(self.file) for _ in range(THREADS)]

        def add_all(connection):
            for it in range(ADDITIONS):
                self.assertEqual(measurements.add(connection, "kitchen", [it, -it]), 2)

        side_by_side([lambda mine=it: add_all(mine) for it in connections])
        rows = measurements.last(connections[0], "kitchen", 1000)
        self.assertEqual([place for place, _ in rows], list(range(2 * THREADS * ADDITIONS, 0, -1)))
        self.assertEqual(sorted(it for _, it in rows), sorted(THREADS * [it for number in range(ADDITIONS) for it in (number, -number)]))
        for it in connections:
            it.close()


class Readme(Test):
    def test_its_lines(self):
        with open(TOP + "/README.md", encoding="utf-8") as page:
            found = re.search(r"^    import narumbesi.*\n(?:    .*\n)+", page.read(), re.M)
        lines = [it[4:] for it in found[0].splitlines()]
        self.assertEqual(len(lines), 5)
        text = "\n".join(lines).replace('"tables.db"', repr(self.file)).replace('"./sqlsh"', repr(PROGRAM))
        with self.connect(self.file) as connection:
            connection.cursor().execute("CREATE TABLE T (A INTEGER)").execute("INSERT INTO T VALUES (1)")
        connection.close()
        ran = subprocess.run([sys.executable, "-c", text], env=environment(), stdout=subprocess.PIPE, timeout=60, universal_newlines=True)
        self.assertEqual((ran.returncode, ran.stdout), (0, "[(1,), (7,)]\n"))

    def test_the_lines_of_its_own_page(self):
        with open(PACKAGE + "/README.md", encoding="utf-8") as page:
            text = re.search(r"^```python\n(.*?)^```$", page.read(), re.M | re.S)[1]
        text = text.replace('"tables.db"', repr(self.file)).replace('"./sqlsh"', repr(PROGRAM))
        ran = subprocess.run([sys.executable, "-c", text], env=environment(), stdout=subprocess.PIPE, timeout=60, universal_newlines=True)
        self.assertEqual((ran.returncode, ran.stdout), (0, "1 it's\n2 None\n"))
