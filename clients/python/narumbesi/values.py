"""Values: how a parameter is written as a literal, how a printed row is read, and their types."""
import datetime
import re

from .errors import DataError, InternalError

LEAST, GREATEST = -2 ** 63, 2 ** 63 - 1
LONGEST_TEXT = 1000
PRINTABLE = re.compile(r"[ -~]*\Z")
# A field of a printed row: null, an integer, or a text in quotes with its quotes doubled.
FIELD = re.compile(r"NULL|0|-?[1-9][0-9]*|'(?:[ -&(-~]|'')*'")


class TypeObject:
    """A type of the specification. A column's type code is NUMBER or STRING; nothing in the
    language has one of the others."""

    def __init__(self, name):
        self.name = name

    def __repr__(self):
        return "narumbesi." + self.name


STRING, BINARY, NUMBER, DATETIME, ROWID = map(TypeObject, ("STRING", "BINARY", "NUMBER", "DATETIME", "ROWID"))

# The specification wants these. The language has no such types: as parameters their values are a
# DataError, so a program has to choose an integer or a text for them.
Date, Time, Timestamp, Binary = datetime.date, datetime.time, datetime.datetime, bytes


def DateFromTicks(ticks):  # noqa: N802 (the specification's name)
    """The local date of so many seconds since the epoch."""
    return Date.fromtimestamp(ticks)


def TimeFromTicks(ticks):  # noqa: N802
    """The local time of so many seconds since the epoch."""
    return Timestamp.fromtimestamp(ticks).time()


def TimestampFromTicks(ticks):  # noqa: N802
    """The local date and time of so many seconds since the epoch."""
    return Timestamp.fromtimestamp(ticks)


def literal(value):
    """The value as a literal of the language. It begins and ends with no letter of its own but in
    NULL, and never with a sign that would make a comment of one before it: whoever puts it into a
    text sees to that.

    A DataError where the language has no such value. bool is one of these: what is read back would
    be an integer.
    """
    if value is None:
        return "NULL"
    if isinstance(value, str):
        return text_literal(value)
    if isinstance(value, int) and not isinstance(value, bool):
        return integer_literal(value)
    raise DataError("a parameter is an integer, a text or None, and no %s" % type(value).__name__)


def integer_literal(value):
    """The least integer has no literal of its own, so it is a difference in parentheses."""
    if not LEAST <= value <= GREATEST:
        raise DataError("an integer of a parameter is outside 64 bits")
    return "(-%d - 1)" % GREATEST if value == LEAST else "%d" % value


def text_literal(value):
    if len(value) > LONGEST_TEXT:
        raise DataError("a text of a parameter has more than %d characters" % LONGEST_TEXT)
    if not PRINTABLE.match(value):
        raise DataError("a text of a parameter has a character that is not printable ASCII")
    return "'%s'" % value.replace("'", "''")


def row_of(line):
    """The values of a printed row. An InternalError where the line is none."""
    if not line:
        return ()  # of a table without columns
    if "'" not in line:
        return tuple([number_or_null(field, line) for field in line.split("|")])
    values, place = [], 0
    while True:
        found = FIELD.match(line, place)
        if not found:
            raise not_a_row(line)
        values.append(value_of(found.group()))
        place = found.end()
        if place == len(line):
            return tuple(values)
        if line[place] != "|":
            raise not_a_row(line)
        place += 1


def value_of(field):
    if field[0] == "'":
        return field[1:-1].replace("''", "'")
    return None if field == "NULL" else int(field)


def number_or_null(field, line):
    if field == "NULL":
        return None
    try:
        return int(field)
    except ValueError:
        raise not_a_row(line) from None


def not_a_row(line):
    return InternalError("the program printed a line that is no row: %r" % line[:200])


def type_of(value):
    """The type of a value, and None of a null, which has none."""
    if value is None:
        return None
    return STRING if isinstance(value, str) else NUMBER
