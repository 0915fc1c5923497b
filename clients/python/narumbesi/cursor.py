"""Cursors: they carry out statements, and keep the answer to the last one."""
from .errors import InterfaceError, ProgrammingError
from .statements import LONGEST, Statement
from .values import row_of, type_of

UNTOUCHED = -1


class Rows:
    """The rows of an answer, each read from its line when it is taken.

    The program answers a query whole, and nothing else can be asked before its last line: so all
    lines are here. A FETCH of the language has one row, or none behind the last one.
    """

    def __init__(self, lines):
        self._lines = lines
        self._next = 0

    def take(self, count=None):
        """The next rows, at most so many; without a number all that are left."""
        end = len(self._lines) if count is None else min(self._next + count, len(self._lines))
        rows = [row_of(line.decode("ascii")) for line in self._lines[self._next:end]]
        self._next = end
        return rows

    def types(self):
        """The types of the columns: of each that of its first value which is not null, else None. No
        types at all where there is no row."""
        types = []
        for line in self._lines:
            row = row_of(line.decode("ascii"))
            types = [known or type_of(value) for known, value in zip(types or [None] * len(row), row)]
            if all(types):
                break
        return types


class Cursor:
    """A cursor of the specification. `execute` gives the cursor back, so that a fetch may follow."""

    lastrowid = None  # rows have no numbers that a program sees

    def __init__(self, connection):
        self.connection = connection
        self.arraysize = 1
        self._is_closed = False
        self._forget()

    def execute(self, operation, parameters=()):
        """Carries out a statement, with literals for its `?`."""
        statement = self._read(operation)
        self._take(self.connection._call(statement.written(parameters), statement.is_fetch()), statement)
        return self

    def executemany(self, operation, seq_of_parameters):
        """Carries out a statement for each of the parameters. Rows of a plain INSERT are put into as
        few statements as their length allows. Where one is refused, those before it stand: the
        transaction is open. A query or a FETCH is a ProgrammingError."""
        statement = self._read(operation)
        if statement.is_query() or statement.is_fetch():
            raise ProgrammingError("executemany carries out no query")
        touched = 0
        for text in texts_of_many(statement, seq_of_parameters):
            touched += max(self.connection._call(text).count, 0)
        self.rowcount = touched
        return self

    def fetchone(self):
        """The next row, or None."""
        rows = self._open_rows().take(1)
        return rows[0] if rows else None

    def fetchmany(self, size=None):
        """The next rows, at most `size`, or `arraysize`."""
        size = self.arraysize if size is None else size
        if size < 0:
            raise InterfaceError("fetchmany takes no negative number")
        return self._open_rows().take(size)

    def fetchall(self):
        """All rows that are left."""
        return self._open_rows().take()

    def close(self):
        """Forgets the answer. Nothing can be done with the cursor then, but to close it again."""
        self._forget()
        self._is_closed = True

    def setinputsizes(self, sizes):
        """Does nothing, as the specification allows."""

    def setoutputsize(self, size, column=None):
        """Does nothing, as the specification allows."""

    def __iter__(self):
        return self

    def __next__(self):
        row = self.fetchone()
        if row is None:
            raise StopIteration
        return row

    def __enter__(self):
        return self

    def __exit__(self, kind, error, trace):
        self.close()

    def _read(self, operation):
        self._is_open()
        self._forget()
        return Statement(operation)

    def _is_open(self):
        if self._is_closed:
            raise InterfaceError("the cursor is closed")
        self.connection._open_session()

    def _open_rows(self):
        self._is_open()
        if self._rows is None:
            raise InterfaceError("there are no rows: the last statement was no query")
        return self._rows

    def _forget(self):
        self._rows = None
        self.description = None
        self.rowcount = UNTOUCHED

    def _take(self, answer, statement):
        self.rowcount = answer.count
        if answer.rows is not None:
            self._rows = Rows(answer.rows)
            self.description = description_of(statement.columns(), self._rows.types())


def description_of(names, types):
    """Seven of each column: its name, its type, and five times None.

    The program prints no names. Those that the select list has are told; any other column is
    `column n`, which is no name of the language. A type is that of the column's values, and None
    where it has none. Where neither tells the columns, as with no rows of SELECT *, there are none.
    """
    names = [None] * len(types) if names is None else names
    types = types or [None] * len(names)
    named = zip(range(1, len(types) + 1), names, types)
    return tuple([(name or "column %d" % place, kind, None, None, None, None, None) for place, name, kind in named])


def texts_of_many(statement, seq_of_parameters):
    """The texts by which the statement is carried out for all of these parameters."""
    begin = statement.rows_of_values()
    if begin is None:
        for parameters in seq_of_parameters:
            yield statement.written(parameters)
        return
    rows, room = [], 0
    for parameters in seq_of_parameters:
        row = statement.written(parameters)[len(begin):]
        if rows and len(row) + 1 > room:
            yield begin + ",".join(rows)
            rows = []
        if not rows:
            room = LONGEST - len(begin.encode("utf-8"))
        rows.append(row)
        room -= len(row) + 1
    if rows:
        yield begin + ",".join(rows)
