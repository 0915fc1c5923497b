"""A client of Narumbesi by Python's database specification 2.0 (PEP 249).

    connection = narumbesi.connect("tables.db", program="./sqlsh")

The README beside this package has what it adds and what it leaves open; docs/PROTOCOL.md of the
repository how it speaks to the program.
"""
import atexit
import os

from .connection import Connection, connect, end_programs, leave_to_parent
from .cursor import Cursor
from .errors import (
    DatabaseError,
    DataError,
    Error,
    IntegrityError,
    InterfaceError,
    InternalError,
    NotSupportedError,
    OperationalError,
    ProgrammingError,
    Warning,
)
from .values import (
    BINARY,
    DATETIME,
    NUMBER,
    ROWID,
    STRING,
    Binary,
    Date,
    DateFromTicks,
    Time,
    TimeFromTicks,
    Timestamp,
    TimestampFromTicks,
)

apilevel = "2.0"
# Threads may share the module and connections, and no cursors.
threadsafety = 2
paramstyle = "qmark"

atexit.register(end_programs)
os.register_at_fork(after_in_child=leave_to_parent)

__all__ = ["apilevel", "threadsafety", "paramstyle", "connect", "Connection", "Cursor"]
__all__ += ["Warning", "Error", "InterfaceError", "DatabaseError", "DataError", "OperationalError"]
__all__ += ["IntegrityError", "InternalError", "ProgrammingError", "NotSupportedError"]
__all__ += ["STRING", "BINARY", "NUMBER", "DATETIME", "ROWID", "Date", "Time", "Timestamp", "Binary"]
__all__ += ["DateFromTicks", "TimeFromTicks", "TimestampFromTicks"]
