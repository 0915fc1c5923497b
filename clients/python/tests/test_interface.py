"""Each call of the specification, and each exception."""
import ast
import os
import pathlib
import re
import runpy
import subprocess
import sys
import zipfile

import narumbesi
from support import PACKAGE, PROGRAM, Test


class Module(Test):
    def test_globals(self):
        self.assertEqual((narumbesi.apilevel, narumbesi.threadsafety, narumbesi.paramstyle), ("2.0", 2, "qmark"))

    def test_all_of_it_reads_as_python_3_8(self):
        files = [os.path.join(at, it) for at, _, names in os.walk(PACKAGE) for it in names if it.endswith(".py")]
        self.assertGreater(len(files), 10)
        for path in files:
            with open(path, encoding="utf-8") as file:
                ast.parse(file.read(), path, feature_version=(3, 8))

    def test_it_needs_nothing_but_python(self):
        with open(PACKAGE + "/pyproject.toml", encoding="utf-8") as file:
            text = file.read()
        self.assertIn("\nrequires = []\n", text)
        self.assertIn("\ndependencies = []\n", text)
        self.assertIn('requires-python = ">=3.8"', text)

    def test_the_package_that_pip_installs(self):
        wheel = os.path.join(self.folder, runpy.run_path(PACKAGE + "/packaging_backend.py")["build_wheel"](self.folder))
        with zipfile.ZipFile(wheel) as files:
            self.assertEqual({it for it in files.namelist() if it.endswith(".py")}, {"narumbesi/" + it for it in os.listdir(PACKAGE + "/narumbesi") if it.endswith(".py")})
            record = files.read("narumbesi-0.1.dist-info/RECORD").decode("ascii").split()
            self.assertEqual([it.split(",")[0] for it in record], files.namelist())
        asks = "import narumbesi; c = narumbesi.connect(program=%r); c.commit(); c.close(); print(narumbesi.__file__)" % PROGRAM
        ran = subprocess.run([sys.executable, "-c", asks], env={**os.environ, "PYTHONPATH": wheel}, cwd=self.folder, stdout=subprocess.PIPE, timeout=60, universal_newlines=True)
        self.assertEqual(ran.stdout, wheel + "/narumbesi/__init__.py\n")

    def test_what_an_import_of_all_brings(self):
        names = {}
        exec("from narumbesi import *", names)  # noqa: S102
        public = {name for name, it in vars(narumbesi).items() if not name.startswith("_") and type(it).__name__ != "module"}
        self.assertEqual(public - {"end_programs", "leave_to_parent"}, set(names) - {"__builtins__"})

    def test_the_place_of_the_program(self):
        connection = self.connect(program=[PROGRAM])
        self.assertEqual(connection.cursor().execute("COMMIT").rowcount, -1)
        self.connect(program=pathlib.Path(PROGRAM)).close()

    def test_a_file_by_path_bytes_or_str(self):
        for file in (self.file, pathlib.Path(self.file), os.fsencode(self.file)):
            with self.subTest(file=file):
                self.connect(file).close()
        self.assertTrue(os.path.exists(self.file))

    def test_frames(self):
        self.connect(self.file, frames=16).close()
        with self.assertRaisesRegex(narumbesi.OperationalError, "status 2; it said: .*15"):
            self.connect(self.file, frames=15)


class Connections(Test):
    def test_commit_and_rollback(self):
        connection = self.connect(self.file)
        cursor = connection.cursor().execute("CREATE TABLE T (A INTEGER)")
        connection.commit()
        cursor.execute("INSERT INTO T VALUES (1)")
        connection.rollback()
        self.assertEqual(cursor.execute("SELECT A FROM T").fetchall(), [])
        cursor.execute("INSERT INTO T VALUES (2)")
        connection.commit()
        cursor.execute("INSERT INTO T VALUES (3)")
        connection.close()
        self.assertEqual(self.connect(self.file).cursor().execute("SELECT A FROM T").fetchall(), [(2,)])

    def test_commit_and_rollback_without_a_transaction(self):
        connection = self.connect()
        connection.commit()
        connection.rollback()

    def test_as_context_manager(self):
        connection = self.connect()
        with connection as same:
            self.assertIs(same, connection)
            connection.cursor().execute("CREATE TABLE T (A INTEGER)")
        with self.assertRaises(KeyError), connection:
            connection.cursor().execute("INSERT INTO T VALUES (1)")
            raise KeyError
        with connection:
            self.assertEqual(connection.cursor().execute("SELECT A FROM T").fetchall(), [])
            connection.cursor().execute("INSERT INTO T VALUES (2)")
        connection.rollback()
        self.assertEqual(connection.cursor().execute("SELECT A FROM T").fetchall(), [(2,)])

    def test_closed(self):
        connection = self.connect()
        cursor = connection.cursor()
        connection.close()
        connection.close()
        for call in (connection.commit, connection.rollback, connection.cursor, connection.__enter__, cursor.fetchall, cursor.fetchone, cursor.fetchmany):
            with self.subTest(call=call), self.assertRaises(narumbesi.InterfaceError):
                call()
        with self.assertRaises(narumbesi.InterfaceError):
            cursor.execute("COMMIT")


class Cursors(Test):
    def setUp(self):
        super().setUp()
        self.connection = self.connect()
        self.cursor = self.connection.cursor()
        self.cursor.execute("CREATE TABLE T (A INTEGER, B VARCHAR(9))")

    def fill(self, count=5):
        self.cursor.executemany("INSERT INTO T VALUES (?, ?)", [(it, "row %d" % it) for it in range(count)])

    def test_rowcount(self):
        self.assertEqual(self.cursor.rowcount, -1)
        self.fill()
        self.assertEqual(self.cursor.rowcount, 5)
        for text, count in (
            ("INSERT INTO T VALUES (5, NULL)", 1),
            ("UPDATE T SET B = 'x' WHERE A > 2", 3),
            ("UPDATE T SET B = 'x' WHERE A > 7", 0),
            ("DELETE FROM T WHERE A > 4", 1),
            ("SELECT A FROM T", 5),
            ("SELECT A FROM T WHERE A = 9", 0),
            ("CREATE INDEX I ON T (A)", -1),
        ):
            with self.subTest(text=text):
                self.assertEqual(self.cursor.execute(text).rowcount, count)

    def test_description(self):
        self.fill(2)
        names = [it[0] for it in self.cursor.execute("SELECT A, T.B, A + 1, A * 2 AS TWICE, B || 'x' C FROM T").description]
        self.assertEqual(names, ["A", "B", "column 3", "TWICE", "C"])
        self.assertEqual([it[1:] for it in self.cursor.execute("SELECT B, A FROM T").description], [(it, None, None, None, None, None) for it in (narumbesi.STRING, narumbesi.NUMBER)])
        self.assertEqual([it[0] for it in self.cursor.execute("SELECT * FROM T").description], ["column 1", "column 2"])
        self.assertEqual([it[:2] for it in self.cursor.execute("SELECT A FROM T WHERE A > 5").description], [("A", None)])
        self.assertEqual(self.cursor.execute("SELECT * FROM T WHERE A > 5").description, ())
        self.assertIsNone(self.cursor.execute("DELETE FROM T").description)

    def test_a_type_is_that_of_the_first_value(self):
        self.cursor.executemany("INSERT INTO T VALUES (?, ?)", [(None, None), (None, "x"), (None, None)])
        self.assertEqual([it[1] for it in self.cursor.execute("SELECT A, B FROM T").description], [None, narumbesi.STRING])

    def test_names_are_those_of_the_language(self):
        for text, name in (("SELECT A X FROM T UNION SELECT A + 1 Y FROM T", "X"), ("SELECT (A) FROM T", "A"), ("SELECT A + 1 A FROM T", "A")):
            said = self.cursor.execute(text).description[0][0]
            if said == name:
                self.cursor.execute("%s ORDER BY %s" % (text, name))
            else:
                self.refused(narumbesi.ProgrammingError, "42000", "name", self.cursor.execute, "%s ORDER BY %s" % (text, name))

    def test_fetching(self):
        self.fill()
        query = "SELECT A FROM T ORDER BY A"
        self.cursor.execute(query)
        self.assertEqual(self.cursor.fetchone(), (0,))
        self.assertEqual(self.cursor.fetchmany(), [(1,)])
        self.assertEqual(self.cursor.fetchmany(2), [(2,), (3,)])
        self.assertEqual(self.cursor.fetchmany(0), [])
        self.assertEqual(self.cursor.fetchall(), [(4,)])
        self.assertEqual((self.cursor.fetchone(), self.cursor.fetchmany(), self.cursor.fetchall()), (None, [], []))
        self.assertEqual(list(self.cursor.execute(query)), [(it,) for it in range(5)])
        self.cursor.arraysize = 3
        self.assertEqual(len(self.cursor.execute(query).fetchmany()), 3)
        with self.assertRaises(narumbesi.InterfaceError):
            self.cursor.fetchmany(-1)

    def test_fetching_without_rows(self):
        for text in ("COMMIT", "INSERT INTO T VALUES (1, 'x')", "DELETE FROM T"):
            self.cursor.execute(text)
            for call in (self.cursor.fetchone, self.cursor.fetchmany, self.cursor.fetchall):
                with self.subTest(text=text, call=call), self.assertRaises(narumbesi.InterfaceError):
                    call()

    def test_a_refused_statement_leaves_no_rows(self):
        self.fill()
        self.cursor.execute("SELECT A FROM T")
        self.refused(narumbesi.ProgrammingError, "42000", "name", self.cursor.execute, "SELECT X FROM T")
        self.assertEqual((self.cursor.description, self.cursor.rowcount), (None, -1))
        with self.assertRaises(narumbesi.InterfaceError):
            self.cursor.fetchone()

    def test_rows_without_fields(self):
        self.cursor.execute("CREATE TABLE Z (CHECK (1 = 1))")
        self.assertEqual(self.cursor.execute("SELECT * FROM Z HAVING 1 = 1").fetchall(), [()])
        self.assertEqual((self.cursor.rowcount, self.cursor.description), (1, ()))

    def test_cursors_of_the_language(self):
        self.cursor.execute("INSERT INTO T VALUES (1, '02000'), (2, NULL)")
        self.cursor.execute("DECLARE C CURSOR FOR SELECT B, A FROM T ORDER BY A")
        self.cursor.execute("OPEN C")
        self.assertEqual(self.cursor.execute("FETCH C").fetchall(), [("02000", 1)])
        self.assertEqual(self.cursor.execute("-- the next one\n fetch c ;").fetchall(), [(None, 2)])
        for _ in range(2):
            self.assertEqual(self.cursor.execute("FETCH C").fetchall(), [])
            self.assertEqual(self.cursor.rowcount, 0)
        self.assertEqual(self.cursor.execute("SELECT A FROM T WHERE A = 1").fetchall(), [(1,)])
        self.cursor.execute("CLOSE C")
        self.refused(narumbesi.InternalError, "24000", None, self.cursor.execute, "FETCH C")
        with self.assertRaises(narumbesi.ProgrammingError):
            self.cursor.executemany("FETCH C", [()])

    def test_executemany(self):
        self.assertEqual(self.cursor.executemany("INSERT INTO T VALUES (?, ?)", iter([])).rowcount, 0)
        self.cursor.executemany("INSERT INTO T (B, A) VALUES (?, ?)", (("b%d" % it, it) for it in range(10)))
        self.assertEqual((self.cursor.rowcount, self.cursor.description), (10, None))
        self.assertEqual(self.cursor.executemany("UPDATE T SET B = ? WHERE A >= ?", [("x", 8), ("y", 20), ("z", 9)]).rowcount, 3)
        self.assertEqual(self.cursor.executemany("DELETE FROM T WHERE A = ?", [[0], [1], [20]]).rowcount, 2)
        # Here each row sees those before it.
        self.cursor.executemany("INSERT INTO T VALUES (? + (SELECT MAX(A) FROM T), NULL)", [(1,), (1,), (1,)])
        self.assertEqual(self.cursor.execute("SELECT A FROM T WHERE A > 9 ORDER BY A").fetchall(), [(10,), (11,), (12,)])
        with self.assertRaises(narumbesi.ProgrammingError):
            self.cursor.executemany("SELECT A FROM T WHERE A = ?", [(1,)])

    def test_executemany_fills_statements_to_their_limit(self):
        sent = []
        call = self.connection._call
        self.connection._call = lambda text, *rest: sent.append(text) or call(text, *rest)
        self.fill(20000)
        self.assertEqual(self.cursor.rowcount, 20000)
        self.assertTrue(all(60000 < len(it) <= 65536 for it in sent[:-1]))
        self.assertLess(len(sent), 10)
        self.assertEqual(self.cursor.execute("SELECT COUNT(*), MIN(A), MAX(A), SUM(A) FROM T").fetchall(), [(20000, 0, 19999, 199990000)])

    def test_closed(self):
        self.fill()
        with self.connection.cursor() as cursor:
            cursor.execute("SELECT A FROM T")
        cursor.close()
        for call in (cursor.fetchone, cursor.fetchmany, cursor.fetchall, lambda: next(cursor), lambda: cursor.execute("COMMIT"), lambda: cursor.executemany("COMMIT", [])):
            with self.subTest(call=call), self.assertRaises(narumbesi.InterfaceError):
                call()
        self.assertIs(self.cursor.connection, self.connection)

    def test_sizes_are_taken(self):
        self.cursor.setinputsizes([25, None])
        self.cursor.setoutputsize(1000)
        self.cursor.setoutputsize(1000, 0)


class Refusals(Test):
    """Each code that can come, and its exception."""

    def test_each_code(self):
        connection = self.connect()
        cursor = connection.cursor()
        cursor.execute("CREATE TABLE T (A INTEGER, B VARCHAR(3), CONSTRAINT SMALL CHECK (A < 100), UNIQUE (A))")
        cursor.execute("INSERT INTO T VALUES (1, 'x'), (2, 'y')")
        connection.commit()
        cursor.execute("SELECT A FROM T")
        for kind, code, reason, text in (
            (narumbesi.NotSupportedError, "0A000", None, "SELECT CAST(A AS INTEGER) FROM T"),
            (narumbesi.ProgrammingError, "21000", None, "SELECT (SELECT A FROM T) FROM T"),
            (narumbesi.DataError, "22001", None, "INSERT INTO T VALUES (3, 'long')"),
            (narumbesi.DataError, "22003", None, "SELECT A + 9223372036854775807 FROM T"),
            (narumbesi.DataError, "22012", None, "SELECT A / 0 FROM T"),
            (narumbesi.IntegrityError, "23000", "SMALL", "INSERT INTO T VALUES (100, 'x')"),
            (narumbesi.IntegrityError, "23000", "#2", "INSERT INTO T VALUES (1, 'x')"),
            (narumbesi.ProgrammingError, "42000", "syntax", "SELEC A FROM T"),
            (narumbesi.ProgrammingError, "42000", "name", "SELECT C FROM T"),
            (narumbesi.ProgrammingError, "42000", "type", "SELECT A || 'x' FROM T"),
            (narumbesi.ProgrammingError, "42000", "character", "SELECT 'é' FROM T"),
            (narumbesi.OperationalError, "X0003", "columns", "SELECT %s FROM T" % ", ".join(["A"] * 257)),
            (narumbesi.OperationalError, "X0003", "text", "SELECT '%s' FROM T" % ("x" * 1001)),
            (narumbesi.OperationalError, "X0003", "statement", "SELECT A FROM T WHERE %s A = 1" % (" " * 65536)),
            (narumbesi.InternalError, "25000", None, "SET TRANSACTION READ ONLY"),
        ):
            with self.subTest(text=text[:60]):
                error = self.refused(kind, code, reason, cursor.execute, text)
                self.assertFalse(error.is_retryable)
                self.assertTrue(str(error).startswith(code if reason is None else "%s %s" % (code, reason)))

    def test_a_serialization_failure_may_be_tried_again(self):
        one, two = self.connect(self.file), self.connect(self.file)
        one.cursor().execute("CREATE TABLE T (A INTEGER)")
        one.commit()
        one.cursor().execute("INSERT INTO T VALUES (1)")
        error = self.refused(narumbesi.OperationalError, "40001", None, two.cursor().execute, "INSERT INTO T VALUES (2)")
        self.assertTrue(error.is_retryable)
        one.commit()
        two.cursor().execute("INSERT INTO T VALUES (2)")
        two.commit()
        self.assertEqual(two.cursor().execute("SELECT A FROM T ORDER BY A").fetchall(), [(1,), (2,)])

    def test_each_code_of_the_page_has_a_class(self):
        with open(os.path.join(PACKAGE, "../../docs/REFUSALS.md"), encoding="utf-8") as page:
            codes = set(re.findall(r"^\| `([0-9A-Z]{5})`", page.read(), re.M))
        self.assertGreater(len(codes), 10)
        self.assertEqual(codes, set(narumbesi.errors.MEANINGS))
        for code in codes:
            self.assertIsNot(type(narumbesi.errors.error_of(code, None)), narumbesi.DatabaseError)
