"""Parameters: where they stand, how they are written, which are refused; and rows as they are read."""
import enum

import narumbesi
from narumbesi.statements import Statement
from narumbesi.values import literal, row_of
from support import Test

LEAST, GREATEST = -2 ** 63, 2 ** 63 - 1


class Colour(enum.IntEnum):
    RED = 7


class Literals(Test):
    def test_integers(self):
        self.assertEqual([literal(it) for it in (0, -1, GREATEST, Colour.RED)], ["0", "-1", "9223372036854775807", "7"])
        self.assertEqual(literal(LEAST), "(-9223372036854775807 - 1)")

    def test_texts_and_null(self):
        self.assertEqual([literal(it) for it in ("", "it's", "''", None)], ["''", "'it''s'", "''''''", "NULL"])

    def test_what_is_no_value(self):
        for value in (LEAST - 1, GREATEST + 1, True, False, 1.0, b"x", "x" * 1001, "é", "a\n", "\n", "a\tb", "\x7f", "\0", [1], object()):
            with self.subTest(value=value), self.assertRaises(narumbesi.DataError):
                literal(value)
        literal("'" * 1000)


class Texts(Test):
    def written(self, text, *parameters):
        return Statement(text).written(parameters)

    def test_marks_in_strings_and_comments_are_none(self):
        self.assertEqual(self.written("SELECT '?', '''?' FROM T -- ?\nWHERE A = ? -- ?", 5), "SELECT '?', '''?' FROM T -- ?\nWHERE A = 5")

    def test_literals_never_run_into_what_stands_beside(self):
        self.assertEqual(self.written("A?B", 5), "A 5 B")
        self.assertEqual(self.written("'a'?'b'", "c"), "'a' 'c' 'b'")
        self.assertEqual(self.written("??", 1, 2), "1 2")
        self.assertEqual(self.written("?-- c\n+?", 1, 2), "1 -- c\n+ 2")

    def test_signs_before_a_negative_number(self):
        self.assertEqual(self.written("1-?", -5), "1- (-5)")
        self.assertEqual(self.written("1+ ?", -5), "1+ (-5)")
        self.assertEqual(self.written("-- c\n?", -5), "-- c\n-5")
        self.assertEqual(self.written("1 -?", 5), "1 - 5")

    def test_numbers_of_parameters(self):
        for text, parameters in (("?", ()), ("?", (1, 2)), ("A", (1,))):
            with self.subTest(text=text), self.assertRaises(narumbesi.ProgrammingError):
                Statement(text).written(parameters)

    def test_parameters_are_a_sequence(self):
        for parameters in ("x", b"x", {"a": 1}, {1}, 1, None, iter([1])):
            with self.subTest(parameters=parameters), self.assertRaises(narumbesi.ProgrammingError):
                Statement("?").written(parameters)

    def test_what_is_no_single_statement(self):
        for text in ("", " -- c", ";", "A; B", "A;;", "A; B;", "@1 A", " @flush", "-- c\n@2", "A 'b", "A 'b;", "A 'b''", 5, None, "\ud800"):
            with self.subTest(text=text), self.assertRaises(narumbesi.ProgrammingError):
                Statement(text)

    def test_one_statement(self):
        for text, written in (("A;", "A"), ("A ; -- c", "A"), ("A ';' -- ;\n B", "A ';' -- ;\n B"), ("A '@' -- it's", "A '@'")):
            with self.subTest(text=text):
                self.assertEqual(self.written(text), written)

    def test_columns_of_a_select_list(self):
        for text, names in (
            ("SELECT a FROM T", ["A"]),
            ("SELECT T.a, b AS c, d e, T.f g FROM T", ["A", "C", "E", "G"]),
            ("SELECT DISTINCT A + B, (A), 'x' Y, 5 Z, COUNT(*) N, SUM(ALL A), -A, A || B FROM T", [None, None, "Y", "Z", "N", None, None, None]),
            ("((SELECT ALL (SELECT MAX(C) FROM U) M, B FROM T) UNION SELECT A, B FROM T)", ["M", "B"]),
            ("SELECT * FROM T", None),
            ("SELECT", None),
            ("(", None),
            ("UPDATE T SET A = 1", None),
        ):
            with self.subTest(text=text):
                self.assertEqual(Statement(text).columns(), names)

    def test_plain_inserts(self):
        for text, begin in (
            ("insert into t values (?, -5, 'x', null, ?)", "insert into t values"),
            ("INSERT INTO T (A, B) VALUES (?, + 5);", "INSERT INTO T (A, B) VALUES"),
            ("INSERT INTO T VALUES (-- c\n?)", "INSERT INTO T VALUES"),
            ("INSERT INTO T VALUES (? + 1)", None),
            ("INSERT INTO T VALUES (-?)", None),
            ("INSERT INTO T VALUES (?), (?)", None),
            ("INSERT INTO T VALUES ((SELECT A FROM T))", None),
            ("INSERT INTO T VALUES (A)", None),
            ("INSERT INTO T SELECT A FROM T WHERE A = ?", None),
            ("UPDATE T SET A = ?", None),
        ):
            with self.subTest(text=text):
                self.assertEqual(Statement(text).rows_of_values(), begin)


class Rows(Test):
    def test_rows(self):
        for line, row in (
            ("1", (1,)),
            ("-9223372036854775808|NULL|0", (LEAST, None, 0)),
            ("'it''s'|'a|b'|NULL|''|-3", ("it's", "a|b", None, "", -3)),
            ("'(3 rows)'", ("(3 rows)",)),
            ("''''", ("'",)),
            ("", ()),
        ):
            with self.subTest(line=line):
                self.assertEqual(row_of(line), row)

    def test_what_is_no_row(self):
        for line in ("x", "'a", "'a'b", "1|", "|1", "'a'|", "'a''", "'a' |1", "NUL"):
            with self.subTest(line=line), self.assertRaises(narumbesi.InternalError):
                row_of(line)


class OverTheProgram(Test):
    def test_extremes_come_back(self):
        values = [LEAST, LEAST + 1, -1, 0, 1, GREATEST, None]
        cursor = self.connect().cursor().execute("CREATE TABLE T (K INTEGER, A INTEGER)")
        for place, value in enumerate(values):
            cursor.execute("INSERT INTO T VALUES (?, ?)", (place, value))
        self.assertEqual([row[1] for row in cursor.execute("SELECT K, A FROM T ORDER BY K")], values)
        self.assertEqual(cursor.execute("SELECT K FROM T WHERE A = ?", (LEAST,)).fetchall(), [(0,)])
        self.assertEqual(cursor.execute("SELECT A -? FROM T WHERE A = ?", (-5, -1)).fetchall(), [(4,)])
        self.assertEqual(cursor.execute("SELECT ?*? FROM T WHERE K = 0", (-3, -4)).fetchall(), [(12,)])

    def test_texts_come_back(self):
        every = "".join(map(chr, range(32, 127)))
        values = ["", "'", "''", "it's", "?", "a;b", "-- c", "a|b", "(3 rows)", "00000", "NULL", " ", every, "'" * 255, "x" * 255]
        cursor = self.connect().cursor().execute("CREATE TABLE T (K INTEGER, B VARCHAR(255))")
        cursor.executemany("INSERT INTO T VALUES (?,?)", list(enumerate(values)))
        self.assertEqual(cursor.execute("SELECT K, B FROM T ORDER BY K").fetchall(), list(enumerate(values)))
        for place, value in enumerate(values):
            self.assertEqual(cursor.execute("SELECT K FROM T WHERE B=?", (value,)).fetchall(), [(place,)])
        self.assertEqual(cursor.execute("SELECT ?||? FROM T WHERE K = 0", ("'" * 400, "'" * 600)).fetchall(), [("'" * 1000,)])

    def test_a_parameter_in_an_in_list(self):
        cursor = self.connect().cursor().execute("CREATE TABLE T (A INTEGER)")
        cursor.executemany("INSERT INTO T VALUES (?)", [(-1,), (2,), (LEAST,)])
        self.assertEqual(cursor.execute("SELECT A FROM T WHERE A IN (?, ?) ORDER BY A", (-1, 2)).fetchall(), [(-1,), (2,)])
        self.refused(narumbesi.ProgrammingError, "42000", "syntax", cursor.execute, "SELECT A FROM T WHERE A IN (?)", (LEAST,))
        self.refused(narumbesi.ProgrammingError, "42000", "syntax", cursor.execute, "SELECT A FROM T WHERE A = ?", (None,))

    def test_what_is_refused_is_not_sent(self):
        connection = self.connect()
        cursor = connection.cursor().execute("CREATE TABLE T (A INTEGER)")
        with self.assertRaises(narumbesi.DataError):
            cursor.execute("INSERT INTO T VALUES (?)", (1.5,))
        with self.assertRaises(narumbesi.DataError):
            cursor.executemany("INSERT INTO T VALUES (?)", [(1,), (True,)])
        with self.assertRaises(narumbesi.ProgrammingError):
            cursor.execute("INSERT INTO T VALUES (1); INSERT INTO T VALUES (2)")
        self.assertEqual(cursor.execute("SELECT A FROM T").fetchall(), [])
