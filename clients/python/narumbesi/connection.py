"""Connections: a session of the program that keeps a file."""
import os
import threading
import weakref

from . import errors
from .cursor import Cursor
from .errors import InterfaceError, OperationalError
from .program import HasEnded, Program

SECONDS_AT_EXIT = 10
# The programs of this process: by the file, those in memory each by a key of its own.
PROGRAMS = weakref.WeakValueDictionary()
LOCK = threading.Lock()


def connect(file=None, frames=None, program=None, time_limit=None):
    """A connection to the tables that are kept in `file`, which is made where there is none; without
    one, to tables in memory that are gone with the connection.

    `program` starts the engine: a path, or a list of words; left out, it is `sqlsh`, looked for as
    commands are. `frames` is handed to it. `time_limit` is how many seconds each call may take.

    All connections of this process to one file share one process of the program, each with its own
    session, 64 at most. An OperationalError where the program cannot be started, or cannot open the
    file: its code is X0002 where another process has it.
    """
    words = [os.fspath(it) for it in (program if isinstance(program, (list, tuple)) else [program or "sqlsh"])]
    words += ["run"] + ([] if frames is None else ["--frames", str(frames)])
    key = object()
    if file is not None:
        key = os.path.realpath(os.fsdecode(file))
        words.append(key)
    while True:
        shared = program_of(key, words)
        try:
            return Connection(shared, shared.enter(time_limit), time_limit)
        except HasEnded:
            continue  # it was about to when it was asked
        except OperationalError as error:
            if error.code in ("X0001", "X0002", "X0004"):
                raise OperationalError("%s (the file could not be opened)" % error, error.code, error.reason) from None
            raise


def program_of(key, words):
    """The program that has the file, started where there is none."""
    with LOCK:
        program = PROGRAMS.get(key)
        if program is None or program.has_ended:
            program = PROGRAMS[key] = Program(words)
    if program.words != words:
        raise InterfaceError("this process has the file open by other words: %s" % " ".join(program.words))
    return program


def end_programs():
    """At the end of this process: what is not committed is rolled back, and the files are closed."""
    for program in list(PROGRAMS.values()):
        try:
            program.end(SECONDS_AT_EXIT)
        except errors.Error:
            pass


def leave_to_parent():
    """In a forked process: the programs are the parent's."""
    global LOCK
    LOCK = threading.Lock()
    for program in list(PROGRAMS.values()):
        program.leave_to_parent()
    PROGRAMS.clear()


# Every exception is an attribute of connections too, as the specification allows.
@errors.as_attributes
class Connection:
    """A session: a transaction begins by itself with the first statement that reads or changes
    tables, and ends with `commit` or `rollback`. Nothing commits by itself.

    As a context manager it commits where the block ends well, and else rolls back; it stays open.
    Threads may share a connection, and then share its transaction.
    """

    def __init__(self, program, session, time_limit):
        self._program = program
        self._session = session
        self.time_limit = time_limit

    def cursor(self):
        """A new cursor. All cursors of a connection are in its one transaction."""
        self._open_session()
        return Cursor(self)

    def commit(self):
        """Commits. Where that is refused, the transaction stays open."""
        self._call("COMMIT")

    def rollback(self):
        """Rolls back."""
        self._call("ROLLBACK")

    def close(self):
        """Rolls back what is not committed, and ends the connection. With the last one to a file the
        program ends, and is waited for; an OperationalError where it could not close the file. A
        second call does nothing."""
        session, self._session = self._session, None
        if session is not None:
            self._program.leave(session, self.time_limit)

    def _open_session(self):
        if self._session is None:
            raise InterfaceError("the connection is closed")
        return self._session

    def _call(self, text, is_fetch=False):
        return self._program.call(self._open_session(), text, self.time_limit, is_fetch)

    def __enter__(self):
        self._open_session()
        return self

    def __exit__(self, kind, error, trace):
        if kind is None:
            try:
                self.commit()
            except errors.Error:
                self._try_to_roll_back()
                raise
        else:
            self._try_to_roll_back()

    def _try_to_roll_back(self):
        """What is raised already says more than that this failed too."""
        try:
            self.rollback()
        except errors.Error:
            pass

    def __del__(self):
        session = self.__dict__.get("_session")
        if session is not None:
            self._program.abandon(session)
