"""The program that keeps a file: one process, whose sessions the connections to the file share.

docs/PROTOCOL.md of the repository says what is written to it and read back. A thread takes what
connections ask for from a queue: it writes a statement and reads its answer to the end before it
takes the next one. So calls are made one at a time, whichever threads ask for them; and a call that
is given up, by its time limit or by an interrupt, leaves no half of an answer behind: the thread
reads the rest, and rolls back.
"""
import functools
import os
import queue
import re
import signal
import subprocess
import tempfile
import threading

from .errors import Error, InterfaceError, InternalError, OperationalError, error_of
from .values import FIELD

SESSIONS = 64
ANSWER_END = re.compile(rb"00000(?: (\d+))?|(02000) 0|\((\d+) rows\)|ERROR (\w{5})(?: (.+))?")
# The answer to a FETCH behind the last row.
NO_ROW = b"02000"
ROW = re.compile(("(?:{0})?(?:[|](?:{0}))*".format(FIELD.pattern)).encode("ascii"))
# Status 1 says that some reply was a refusal.
GOOD_STATUSES = (0, 1)
# How long a program that has closed its output may take to end.
SECONDS_TO_END = 30
CHUNK = 1 << 18


class HasEnded(InterfaceError):
    """What is asked for comes too late: the program has ended, or is about to."""


class Answer:
    """What a statement was answered: `count` rows, whose lines are `rows`; or, where `rows` is None,
    that so many were touched, -1 where the statement touches none."""

    def __init__(self, rows, count):
        self.rows = rows
        self.count = count


class Session:
    """A session of the program while a connection has it: its number, from 1 to 64, comes again
    later."""

    def __init__(self, number):
        self.number = number
        self.is_open = True


class Request:
    """What a connection asks of the thread: `work` carries it out, and `undo` is called with what
    that answered where nobody waits for it any more."""

    def __init__(self, work, undo):
        self.work = work
        self.undo = undo
        self.is_over = threading.Event()
        self.is_given_up = False
        self.answer = None
        self.error = None


class Program:
    """One process of the program. It is told to end when its last session is left."""

    def __init__(self, words):
        self.words = words
        self._end = None  # the error for whatever is asked from now on
        self._lock = threading.Lock()
        self._requests = queue.SimpleQueue()
        self._sessions = set()  # those that are open: the thread's alone, as all that follows
        self._numbers = set()  # theirs, and those that could not be made ready for another one
        self._stderr = tempfile.TemporaryFile()
        how = {"stdin": subprocess.PIPE, "stdout": subprocess.PIPE, "stderr": self._stderr, "bufsize": 0}
        try:
            # In a session of its own no interrupt at the terminal reaches it: a file is whole only
            # once the program has ended by itself.
            self._process = subprocess.Popen(words, start_new_session=True, **how)
        except OSError as error:
            self._stderr.close()
            raise OperationalError("the program could not be started: %s" % error) from error
        threading.Thread(target=self._serve, name="narumbesi", daemon=True).start()

    @property
    def has_ended(self):
        return self._end is not None

    # What connections ask for

    def enter(self, limit=None):
        """A session that no connection has. HasEnded where another program has to be started."""
        return self._wait(self._ask(self._enter, self._undo_enter), limit)

    def call(self, session, text, limit=None, is_fetch=False):
        """The answer to a statement. An error where it is refused, where the time limit passes (then
        the transaction is rolled back), or where the program has ended."""
        work = functools.partial(self._call, session, text, is_fetch)
        return self._wait(self._ask(work, lambda _: self._call(session, "ROLLBACK")), limit)

    def leave(self, session, limit=None):
        """Rolls a session back, and lets its number be used again. With the last one the program is
        told to end, and waited for: an error where the file could not be closed."""
        self._wait(self._ask(functools.partial(self._leave, session), lambda _: None), limit)

    def abandon(self, session):
        """As `leave`, and waits for nothing: a connection that was thrown away may ask for it at any
        moment, so no lock is taken."""
        self._requests.put(Request(functools.partial(self._leave, session), lambda _: None))

    def end(self, limit=None):
        """Has the program end, whatever sessions there are."""
        try:
            self._wait(self._ask(self._finish, lambda _: None), limit)
        except HasEnded:
            pass

    def leave_to_parent(self):
        """In a forked process: the program is the parent's, which alone may speak to it."""
        self._lock = threading.Lock()
        self._end = self._end or InterfaceError("the connection belongs to another process: connect again behind a fork")
        for pipe in (self._process.stdin, self._process.stdout):
            pipe.close()
        self._process.returncode = 0  # it is the parent who waits for it

    # Of those who wait

    def _ask(self, work, undo):
        request = Request(work, undo)
        with self._lock:
            if self._end:
                raise self._end.copy()
            self._requests.put(request)
        return request

    def _wait(self, request, limit):
        is_over = False
        try:
            is_over = request.is_over.wait(limit)
        finally:
            if not is_over:
                is_over = self._give_up(request)
        if not is_over:
            raise OperationalError("the time limit of %g seconds has passed; the transaction is rolled back" % limit)
        if request.error:
            raise request.error
        return request.answer

    def _give_up(self, request):
        """Whether the request was over all the same."""
        with self._lock:
            request.is_given_up = not request.is_over.is_set()
            return not request.is_given_up

    # Of the thread

    def _serve(self):
        """Carries out one request after another, until the program has ended; those that are left
        then are answered that it has."""
        while not self._end:
            self._carry_out(self._requests.get())
        with self._lock:
            left = [self._requests.get() for _ in range(self._requests.qsize())]
        for request in left:
            request.error = self._end.copy()
            request.is_over.set()
        self._process.wait()

    def _carry_out(self, request):
        try:
            if not request.is_given_up:
                request.answer = request.work()
        except Error as error:
            request.error = error
        except Exception as error:  # noqa: BLE001 (whoever waits has to be told)
            request.error = self._fail(InternalError("the program could not be spoken to: %s" % error))
        with self._lock:
            if not request.is_given_up:
                request.is_over.set()
                return
        if not self._end:
            self._carry_out(Request(functools.partial(request.undo, request.answer), None))

    def _enter(self):
        free = sorted(set(range(1, SESSIONS + 1)) - self._numbers)
        if not free:
            raise OperationalError("X0003 sessions: %d connections are open" % SESSIONS, "X0003", "sessions")
        session = Session(free[0])
        try:
            # An idle session's ROLLBACK does nothing: a refusal is one of the file, or of the session.
            self._call(session, "ROLLBACK")
        except OperationalError:
            if not self._sessions and not self._end:
                self._end_process()
                self._set_end(HasEnded("the program has ended"))
            raise
        self._sessions.add(session)
        self._numbers.add(session.number)
        return session

    def _undo_enter(self, session):
        if session is not None:
            self._leave(session)
        elif not self._sessions:
            self._finish()

    def _call(self, session, text, is_fetch=False):
        if not session.is_open:
            raise InterfaceError("the connection is closed")
        self._write("@%d %s\n;\n" % (session.number, text))
        return self._read(is_fetch)

    def _leave(self, session):
        """An idle session keeps what its next transaction may do, so that is set again."""
        try:
            self._call(session, "ROLLBACK")
            self._call(session, "SET TRANSACTION READ WRITE")
            self._numbers.discard(session.number)
        finally:
            session.is_open = False
            self._sessions.discard(session)
            if not self._sessions and not self._end:
                self._finish()

    def _finish(self):
        """Has the program end, and looks how it did."""
        said, status = self._end_process()
        if status in GOOD_STATUSES:
            self._set_end(HasEnded("the program has ended"))
            return
        found = ANSWER_END.fullmatch(said.strip())
        if found and found[4]:
            code = found[4].decode("ascii")
            raise self._fail(OperationalError("%s: the file could not be closed; the program ended with status %d" % (code, status), code))
        raise self._fail(self._unexpected_end())

    def _end_process(self):
        """Closes the program's input, and waits until it has ended by itself. What it still printed,
        and its status."""
        self._process.stdin.close()
        return self._process.stdout.readall(), self._process.wait()

    def _write(self, text):
        rest = memoryview(text.encode("utf-8"))
        try:
            while rest:
                rest = rest[self._process.stdin.write(rest):]
        except BrokenPipeError:
            pass  # what it printed before it ended is read

    def _read(self, is_fetch):
        """The answer to a statement. It ends with the first line that is not one of a row, that to a
        FETCH with its first line, and nothing comes behind that."""
        rows, rest = [], b""
        while True:
            chunk = self._process.stdout.read(CHUNK)
            if not chunk:
                raise self._fail(self._unexpected_end())
            *lines, rest = (rest + chunk).split(b"\n")
            for place, line in enumerate(lines, 1):
                if is_fetch:
                    return self._fetched(line, b"\n".join([*lines[place:], rest]))
                if not ROW.fullmatch(line):
                    return self._answer(rows, line, b"\n".join([*lines[place:], rest]))
                rows.append(line)

    def _fetched(self, line, behind):
        """The answer to a FETCH: a row, none behind the last one, or a refusal."""
        if line != NO_ROW and not ROW.fullmatch(line) or behind:
            return self._answer([], line, behind)
        rows = [] if line == NO_ROW else [line]
        return Answer(rows, len(rows))

    def _answer(self, rows, line, behind):
        end = ANSWER_END.fullmatch(line)
        if not end or behind:
            raise self._fail(InternalError("the program printed what the protocol has not: %r" % (behind if end else line)[:200]))
        touched, none, count, code, reason = end.groups()
        if code:
            raise error_of(code.decode("ascii"), reason.decode("ascii", "replace") if reason else None)
        if count is None:
            return Answer(None, 0 if none else -1 if touched is None else int(touched))
        if int(count) != len(rows):
            raise self._fail(InternalError("the program printed %d rows, and that they are %d" % (len(rows), int(count))))
        return Answer(rows, len(rows))

    # How it ended

    def _set_end(self, error):
        with self._lock:
            self._end = error
        for file in (self._process.stdin, self._process.stdout, self._stderr):
            file.close()

    def _fail(self, error):
        """Gives the program up: its pipes are closed, so that it ends by itself, if it has not."""
        if not self._end:
            self._set_end(error)
        return error.copy()

    def _unexpected_end(self):
        try:
            status = self._process.wait(SECONDS_TO_END)
        except subprocess.TimeoutExpired:
            return OperationalError("the program has closed its output, and does not end")
        how = "was ended by signal %s" % signal.Signals(-status).name if status < 0 else "ended with status %d" % status
        self._stderr.seek(0)
        said = self._stderr.read()[-2000:].decode("utf-8", "replace").strip()
        return OperationalError("the program %s%s" % (how, "; it said: " + said if said else ""))
