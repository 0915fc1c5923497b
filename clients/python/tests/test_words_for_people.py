"""What the program says on standard error: with `--verbose` the line and the meaning of each refusal,
and how many records there were so far; without it nothing but a fault of the command line, and how
far a load by batches came. What it prints stays the same."""
import os
import re
import subprocess
import threading
import time

from support import LIMIT, PROGRAM, TOP, Test

TABLE = b"CREATE TABLE T (A INTEGER PRIMARY KEY, V VARCHAR(5), CONSTRAINT SMALL CHECK (A < 9000000)); COMMIT;"
# Long enough for a line on records, of which there is at most one a second.
PAUSE = 1.3


class WordsForPeople(Test):
    def run_program(self, *words, script=b"", status=0):
        ran = subprocess.run([PROGRAM, *words], input=script, capture_output=True, timeout=LIMIT)
        self.assertEqual(ran.returncode, status, ran.stderr)
        return ran

    def said_of(self, script, status=1):
        """What is said of a script, which is carried out with the option and without it: nothing is
        said without it, and the replies are the same."""
        quiet = self.run_program("run", script=script, status=status)
        self.assertEqual(quiet.stderr, b"")
        verbose = self.run_program("run", "--verbose", script=script, status=status)
        self.assertEqual(verbose.stdout, quiet.stdout)
        return verbose.stderr.decode("ascii").splitlines()

    def make_table(self):
        self.run_program("run", self.file, script=TABLE)

    def make_rows(self, count):
        """A CSV of so many records of more than 120 bytes, and the rows in a table."""
        rows = self.folder + "/rows.csv"
        with open(rows, "w", encoding="ascii") as it:
            it.writelines("%d,'%s'\n" % (at, "x" * 120) for at in range(count))
        self.run_program("run", self.file, script=b"CREATE TABLE T (A INTEGER PRIMARY KEY, V VARCHAR(120)); COMMIT;")
        self.run_program("load", self.file, "T", rows)
        return rows

    def test_line_and_meaning(self):
        said = self.said_of(b"CREATE TABLE T (A INTEGER);\n\nSELECT B FROM T;\nSELECT;\n")
        wanted = ["line 3: 42000 name: a table, an index or a column of that name is not there"]
        self.assertEqual(said, wanted + ["line 4: 42000 syntax: no statement has these tokens"])

    def test_accepted_statements(self):
        self.assertEqual(self.said_of(TABLE + b"\nSELECT A, 'ERROR 42000 name' FROM T;\n", 0), [])

    def test_rows_are_no_refusals(self):
        script = b"CREATE TABLE T (V VARCHAR(20)); INSERT INTO T VALUES ('ERROR 22012');\nSELECT V FROM T;"
        self.assertEqual(self.said_of(script, 0), [])

    def test_statement_over_lines(self):
        script = b"-- a comment;\n\n  SELECT\n A\n FROM\n NOPE\n ; COMMIT; COMMIT\n;\nSELECT 1 / 0\n FROM NOPE;"
        said = self.said_of(script)
        self.assertEqual([it.split(":")[0] for it in said], ["line 3", "line 9"])

    def test_several_on_a_line(self):
        said = self.said_of(b"COMMIT; SELECT; SELECT;\nCOMMIT; SELECT;")
        self.assertEqual([it.split(":")[0] for it in said], ["line 1", "line 1", "line 2"])

    def test_last_statement_without_its_end(self):
        said = self.said_of(b"COMMIT;\nSELECT")
        self.assertEqual(said, ["line 2: 42000 syntax: no statement has these tokens"])

    def test_semicolons_in_texts_and_comments(self):
        said = self.said_of(b"COMMIT -- ; '\n;\nSELECT ';\n' FROM NOPE;\nSELECT;")
        self.assertEqual([it.split(":")[0] for it in said], ["line 3", "line 5"])

    def test_sessions(self):
        said = self.said_of(b"@2 COMMIT;\n@2 SELECT;\n@3;\nSELECT;\n@x;\n@flush;\n")
        self.assertEqual([it[:21] for it in said], ["line 2: 42000 syntax:", "line 4: 42000 syntax:", "line 5: 42000 session"])

    def test_constraints(self):
        said = self.said_of(TABLE + b"\nINSERT INTO T VALUES (9000000, 'a');\nINSERT INTO T VALUES (1, 'a'), (1, 'b');")
        meaning = "the constraint of that name is violated; #n is the n-th of its table"
        self.assertEqual(said, ["line 2: 23000 SMALL: " + meaning, "line 3: 23000 #1: " + meaning])

    def test_many_lines(self):
        count = 3000
        said = self.said_of(b"COMMIT;\nSELECT\n;\n" * count)
        self.assertEqual([it.split(":")[0] for it in said], ["line %d" % (3 * at + 2) for at in range(count)])

    def test_file_that_cannot_be_opened(self):
        ran = self.run_program("run", "--verbose", self.folder, status=3)
        self.assertEqual((ran.stdout, ran.stderr), (b"ERROR X0002\n", b"X0002: the input, the output or the file refused\n"))

    def test_each_refusal_has_a_meaning(self):
        with open(TOP + "/docs/REFUSALS.md", encoding="utf-8") as it:
            parts = it.read().split("\n## ")
        lines = {it.split("\n")[0]: re.findall(r"^\| `(\w+)`", it, re.M) for it in parts}
        wanted = {it for it in lines["Codes"] if it not in ("42000", "X0003")}
        wanted |= {"42000 " + it for it in lines["Reasons of 42000"]} | {"X0003 " + it for it in lines["Limits of X0003"]}
        with open(TOP + "/crates/remarks/src/meanings.rt", encoding="utf-8") as it:
            found = re.findall(r'^ +\(?"([0-9X][0-9A]{4}(?: \w+)?)",', it.read(), re.M)
        self.assertEqual(sorted(found), sorted(wanted - {"23000"}))

    def test_refused_errors_change_nothing(self):
        script = b"COMMIT; SELECT;\nCOMMIT;"
        for where in "2>&-", "2>/dev/full":
            words = ["sh", "-c", 'exec "$0" run --verbose ' + where, PROGRAM]
            ran = subprocess.run(words, input=script, capture_output=True, timeout=LIMIT)
            self.assertEqual((ran.returncode, ran.stdout), (1, b"00000\nERROR 42000 syntax\n00000\n"))

    def test_each_reply_comes_before_more_is_read(self):
        with subprocess.Popen([PROGRAM, "run", "--verbose"], stdin=subprocess.PIPE, stdout=subprocess.PIPE, stderr=subprocess.PIPE) as it:
            for line in range(1, 4):
                it.stdin.write(b"SELECT;\n")
                it.stdin.flush()
                self.assertEqual(it.stdout.readline(), b"ERROR 42000 syntax\n")
                self.assertEqual(it.stderr.readline(), b"line %d: 42000 syntax: no statement has these tokens\n" % line)
            it.stdin.close()
            self.assertEqual(it.wait(LIMIT), 1)

    def test_option_stands_first(self):
        for words in ["run", "--frames", "16", "--verbose"], ["load", "--header", "--verbose", "f", "T", "c"]:
            ran = self.run_program(*words, status=2)
            self.assertEqual(ran.stdout, b"")
            self.assertNotEqual(ran.stderr, b"")
        self.assertEqual(self.run_program("run", "--verbose", "--verbose", status=2).stdout, b"")
        ran = self.run_program("run", "--verbose", "--frames=16", self.file, script=b"COMMIT;")
        self.assertEqual((ran.stdout, ran.stderr), (b"00000\n", b""))

    def load_slowly(self, *options):
        """Loads 150 records from standard input, 50 of them later. Returns what was said."""
        self.make_table()
        words = [PROGRAM, "load", *options, self.file, "T", "-"]
        with subprocess.Popen(words, stdin=subprocess.PIPE, stdout=subprocess.PIPE, stderr=subprocess.PIPE) as it:
            it.stdin.write(b"".join(b"%d,\"'a''b'\"\n" % at for at in range(100)))
            it.stdin.flush()
            time.sleep(PAUSE)
            out, said = it.communicate(b"".join(b"%d,NULL\n" % at for at in range(100, 150)), LIMIT)
        self.assertEqual((it.returncode, out), (0, b"00000 150\n"))
        return said

    def test_records_read(self):
        said = self.load_slowly("--verbose")
        self.assertRegex(said, rb"\A(\d+ records read\n){1,9}\Z")
        self.assertLessEqual(int(said.split()[-3]), 150)

    def test_records_read_by_batches(self):
        self.assertRegex(self.load_slowly("--verbose", "--batch", "40"), rb"\A(\d+ records read\n){1,9}\Z")

    def test_records_are_not_told_unasked(self):
        self.assertEqual(self.load_slowly(), b"")

    def dump_slowly(self, *options):
        """Dumps more than the program writes at once, and a pipe holds, into a pipe that is read
        after a while. Returns what was said."""
        rows, pipe = self.make_rows(1500), self.folder + "/pipe"
        os.mkfifo(pipe)
        found = []

        def read():
            with open(pipe, "rb") as it:
                time.sleep(PAUSE)
                found.append(it.read())

        reader = threading.Thread(target=read)
        reader.start()
        ran = self.run_program("dump", *options, self.file, "T", pipe)
        reader.join()
        with open(rows, "rb") as it:
            self.assertEqual(found, [it.read()])
        self.assertEqual(ran.stdout, b"00000 1500\n")
        return ran.stderr

    def test_records_written(self):
        said = self.dump_slowly("--verbose")
        self.assertRegex(said, rb"\A(\d+ records written\n){1,9}\Z")
        self.assertLessEqual(int(said.split()[-3]), 1500)

    def test_records_written_are_not_told_unasked(self):
        self.assertEqual(self.dump_slowly(), b"")

    def test_quick_commands_say_nothing(self):
        rows = self.make_rows(3)
        for words in ["dump", "--verbose", self.file, "T", self.folder + "/again.csv"], ["load", "--verbose", self.file, "T", rows]:
            status = 0 if words[0] == "dump" else 1
            self.assertEqual(self.run_program(*words, status=status).stderr, b"")

    def test_stopped_batches_are_told_with_and_without(self):
        for options in [], ["--verbose"]:
            table = self.folder + "/tables%d.db" % len(options)
            self.run_program("run", table, script=TABLE)
            ran = self.run_program("load", *options, "--batch", "2", table, "T", "-", script=b"1,'a'\n2,'b'\n3,'too long'\n", status=1)
            self.assertEqual((ran.stdout, ran.stderr), (b"ERROR 22001\n", b"stopped behind 2 records\n"))
