"""The tests that the specification's own suite (dbapi20.py) names, over the tables that it uses.
docs/PROTOCOL.md has the list, with what is not met."""
import time

import narumbesi
from support import PROGRAM, Test

BEERS = ["Carlton Cold", "Carlton Draft", "Mountain Goat", "Redback", "Victoria Bitter", "XXXX"]


class Compliance(Test):
    def setUp(self):
        super().setUp()
        self.connection = self.connect()
        self.cursor = self.connection.cursor()

    def create_booze(self, cursor=None):
        (cursor or self.cursor).execute("create table booze (name varchar(20))")

    def create_barflys(self):
        self.cursor.execute("create table barflys (name varchar(20), drink varchar(30))")

    def populate(self):
        self.create_booze()
        for beer in BEERS:
            self.cursor.execute("insert into booze values ('%s')" % beer)

    def select(self, cursor=None):
        return (cursor or self.cursor).execute("select name from booze")

    def test_connect(self):
        narumbesi.connect(program=PROGRAM).close()

    def test_apilevel(self):
        self.assertEqual(narumbesi.apilevel, "2.0")

    def test_threadsafety(self):
        self.assertIn(narumbesi.threadsafety, (0, 1, 2, 3))

    def test_paramstyle(self):
        self.assertIn(narumbesi.paramstyle, ("qmark", "numeric", "named", "format", "pyformat"))

    def test_Exceptions(self):
        self.assertTrue(issubclass(narumbesi.Warning, Exception))
        self.assertTrue(issubclass(narumbesi.Error, Exception))
        for it in (narumbesi.InterfaceError, narumbesi.DatabaseError):
            self.assertTrue(issubclass(it, narumbesi.Error))
        for name in ("DataError", "OperationalError", "IntegrityError", "InternalError", "ProgrammingError", "NotSupportedError"):
            self.assertTrue(issubclass(getattr(narumbesi, name), narumbesi.DatabaseError))

    def test_ExceptionsAsConnectionAttributes(self):
        for name in (
            "Warning", "Error", "InterfaceError", "DatabaseError", "DataError", "OperationalError",
            "IntegrityError", "InternalError", "ProgrammingError", "NotSupportedError",
        ):
            self.assertIs(getattr(self.connection, name), getattr(narumbesi, name))

    def test_commit(self):
        self.connection.commit()

    def test_rollback(self):
        self.connection.rollback()

    def test_cursor(self):
        self.assertIsNotNone(self.connection.cursor())

    def test_cursor_isolation(self):
        self.create_booze()
        self.cursor.execute("insert into booze values ('Victoria Bitter')")
        self.assertEqual(self.select(self.connection.cursor()).fetchall(), [("Victoria Bitter",)])

    def test_description(self):
        self.create_booze()
        self.assertIsNone(self.cursor.description)
        self.select()
        self.assertEqual([len(it) for it in self.cursor.description], [7])
        self.assertEqual(self.cursor.description[0][0].lower(), "name")
        self.assertIsNone(self.cursor.description[0][1])  # the suite wants the type here too
        self.cursor.execute("insert into booze values ('Redback')")
        self.assertEqual(self.select().description[0][1], narumbesi.STRING)
        self.create_barflys()
        self.assertIsNone(self.cursor.description)

    def test_rowcount(self):
        self.create_booze()
        self.assertEqual(self.cursor.rowcount, -1)
        self.cursor.execute("insert into booze values ('Victoria Bitter')")
        self.assertEqual(self.cursor.rowcount, 1)
        self.assertEqual(self.select().rowcount, 1)
        self.create_barflys()
        self.assertEqual(self.cursor.rowcount, -1)

    def test_callproc(self):
        self.assertFalse(hasattr(self.cursor, "callproc"))

    def test_close(self):
        self.connection.close()
        self.assertRaises(narumbesi.Error, self.create_booze)
        self.assertRaises(narumbesi.Error, self.connection.commit)

    def test_non_idempotent_close(self):
        self.connection.close()
        self.connection.close()  # the suite wants an error here

    def test_execute(self):
        self.create_booze()
        self.cursor.execute("insert into booze values ('Victoria Bitter')")
        self.cursor.execute("insert into booze values (?)", ("Cooper's",))
        self.assertEqual(sorted(self.select().fetchall()), [("Cooper's",), ("Victoria Bitter",)])

    def test_executemany(self):
        self.create_booze()
        self.cursor.executemany("insert into booze values (?)", [("Cooper's",), ("Boag's",)])
        self.assertEqual(self.cursor.rowcount, 2)
        self.assertEqual(sorted(self.select().fetchall()), [("Boag's",), ("Cooper's",)])

    def test_fetchone(self):
        self.assertRaises(narumbesi.Error, self.cursor.fetchone)
        self.create_booze()
        self.assertRaises(narumbesi.Error, self.cursor.fetchone)
        self.assertIsNone(self.select().fetchone())
        self.assertEqual(self.cursor.rowcount, 0)
        self.cursor.execute("insert into booze values ('Victoria Bitter')")
        self.assertRaises(narumbesi.Error, self.cursor.fetchone)
        self.assertEqual(self.select().fetchone(), ("Victoria Bitter",))
        self.assertIsNone(self.cursor.fetchone())
        self.assertEqual(self.cursor.rowcount, 1)

    def test_fetchmany(self):
        self.assertRaises(narumbesi.Error, self.cursor.fetchmany, 4)
        self.populate()
        self.assertEqual(len(self.select().fetchmany()), 1)
        self.cursor.arraysize = 10
        self.assertEqual([len(self.select().fetchmany(3)), len(self.cursor.fetchmany(4)), len(self.cursor.fetchmany(4))], [3, 3, 0])
        self.cursor.arraysize = 4
        self.select()
        self.assertEqual([len(self.cursor.fetchmany()) for _ in range(3)], [4, 2, 0])
        self.cursor.arraysize = 6
        self.assertEqual(sorted(self.select().fetchmany()), [(it,) for it in BEERS])
        self.create_barflys()
        self.assertEqual(self.cursor.execute("select name from barflys").fetchmany(), [])
        self.assertEqual(self.cursor.rowcount, 0)

    def test_fetchall(self):
        self.assertRaises(narumbesi.Error, self.cursor.fetchall)
        self.populate()
        self.assertRaises(narumbesi.Error, self.cursor.fetchall)
        self.assertEqual(sorted(self.select().fetchall()), [(it,) for it in BEERS])
        self.assertEqual(self.cursor.rowcount, len(BEERS))
        self.assertEqual(self.cursor.fetchall(), [])
        self.create_barflys()
        self.assertEqual(self.cursor.execute("select name from barflys").fetchall(), [])

    def test_mixedfetch(self):
        self.populate()
        self.select()
        rows = [self.cursor.fetchone(), *self.cursor.fetchmany(2), self.cursor.fetchone(), *self.cursor.fetchall()]
        self.assertEqual(sorted(rows), [(it,) for it in BEERS])

    def test_nextset(self):
        self.assertFalse(hasattr(self.cursor, "nextset"))

    def test_arraysize(self):
        self.assertEqual(self.cursor.arraysize, 1)

    def test_setinputsizes(self):
        self.create_booze()
        self.cursor.setinputsizes((25,))
        self.cursor.execute("insert into booze values (?)", ("Cooper's",))

    def test_setoutputsize_basic(self):
        self.cursor.setoutputsize(1000)
        self.cursor.setoutputsize(2000, 0)
        self.create_booze()

    def test_setoutputsize(self):
        self.populate()
        self.cursor.setoutputsize(1, 0)
        self.assertEqual(sorted(self.select().fetchall()), [(it,) for it in BEERS])  # it does nothing

    def test_None(self):
        self.create_booze()
        self.cursor.execute("insert into booze values (NULL)")
        self.cursor.execute("insert into booze values (?)", (None,))
        self.assertEqual(self.select().fetchall(), [(None,), (None,)])

    def test_Date(self):
        narumbesi.Date(2002, 12, 25)
        self.not_a_parameter(narumbesi.DateFromTicks(time.mktime((2002, 12, 25, 0, 0, 0, 0, 0, 0))))

    def test_Time(self):
        narumbesi.Time(13, 45, 30)
        self.not_a_parameter(narumbesi.TimeFromTicks(time.mktime((2001, 1, 1, 13, 45, 30, 0, 0, 0))))

    def test_Timestamp(self):
        narumbesi.Timestamp(2002, 12, 25, 13, 45, 30)
        self.not_a_parameter(narumbesi.TimestampFromTicks(time.mktime((2002, 12, 25, 13, 45, 30, 0, 0, 0))))

    def test_Binary(self):
        self.not_a_parameter(narumbesi.Binary(b"Something"))

    def test_STRING(self):
        self.assertTrue(hasattr(narumbesi, "STRING"))

    def test_BINARY(self):
        self.assertTrue(hasattr(narumbesi, "BINARY"))

    def test_NUMBER(self):
        self.assertTrue(hasattr(narumbesi, "NUMBER"))

    def test_DATETIME(self):
        self.assertTrue(hasattr(narumbesi, "DATETIME"))

    def test_ROWID(self):
        self.assertTrue(hasattr(narumbesi, "ROWID"))

    def not_a_parameter(self, value):
        self.create_booze()
        self.assertRaises(narumbesi.DataError, self.cursor.execute, "insert into booze values (?)", (value,))
