"""Programs that cannot be started or cannot open their file, that end, that are late, that print what
they should not."""
import os
import signal
import subprocess
import sys
import threading
import time

import narumbesi
from support import PACKAGE, PROGRAM, Test

# A program that answers the first statement, and does what stands behind once it is sent another.
# (The client ends a statement by a line of its own.)
READS = "sys.stdin.readline(); sys.stdin.readline(); "
GREETS = "import sys, time; " + READS + "print('00000', flush=True); " + READS


def other_program(does):
    return [sys.executable, "-c", does]


class Opening(Test):
    def test_no_program(self):
        with self.assertRaisesRegex(narumbesi.OperationalError, "could not be started"):
            self.connect(program=self.folder + "/none")

    def test_a_program_that_ends_at_once(self):
        with self.assertRaisesRegex(narumbesi.OperationalError, "ended with status 70; it said: no toolchain"):
            self.connect(program=other_program("import sys; print('no toolchain', file=sys.stderr); sys.exit(70)"))

    def test_a_program_that_speaks_otherwise(self):
        for does in ("print(sys.stdin.readline(), flush=True)", "print(\"'a'b\", flush=True)", "print('00000\\n1', flush=True)", "print('00000\\n00000', flush=True)"):
            with self.subTest(does=does), self.assertRaisesRegex(narumbesi.InternalError, "what the protocol has not"):
                self.connect(program=other_program("import sys; %s; sys.stdin.read()" % does))

    def test_a_file_that_another_process_has(self):
        other = subprocess.Popen([PROGRAM, "run", self.file], stdin=subprocess.PIPE, stdout=subprocess.PIPE)
        other.stdin.write(b"COMMIT;")
        other.stdin.flush()
        other.stdout.readline()
        for _ in range(2):
            error = self.refused(narumbesi.OperationalError, "X0002", None, self.connect, self.file)
            self.assertIn("could not be opened", str(error))
        other.stdin.close()
        self.assertEqual(other.wait(), 0)
        other.stdout.close()
        self.connect(self.file)

    def test_a_file_in_no_folder(self):
        self.refused(narumbesi.OperationalError, "X0002", None, self.connect, self.folder + "/none/tables.db")

    def test_a_damaged_file(self):
        with open(self.file, "wb") as file:
            file.write(bytes(4095))
        self.refused(narumbesi.OperationalError, "X0004", None, self.connect, self.file)


class Ends(Test):
    def test_a_program_that_is_killed(self):
        """In the middle: while a call waits, and another connection has one queued behind it."""
        one, two = self.connect(self.file), self.connect(self.file)
        cursor = one.cursor().execute("CREATE TABLE T (A INTEGER)")
        process = one._program._process
        process.send_signal(signal.SIGSTOP)
        threading.Timer(0.5, process.kill).start()
        with self.assertRaisesRegex(narumbesi.OperationalError, "was ended by signal SIGKILL"):
            cursor.execute("INSERT INTO T VALUES (1)")
        for call in (one.commit, two.rollback, lambda: two.cursor().execute("SELECT A FROM T"), two.close):
            with self.subTest(call=call), self.assertRaises(narumbesi.OperationalError):
                call()
        two.close()
        self.connect(self.folder + "/new")

    def test_a_program_that_is_killed_in_a_long_answer(self):
        connection = self.connect()
        cursor = connection.cursor().execute("CREATE TABLE T (A INTEGER)")
        cursor.executemany("INSERT INTO T VALUES (?)", ((it,) for it in range(1000)))
        threading.Timer(0.5, connection._program._process.kill).start()
        with self.assertRaisesRegex(narumbesi.OperationalError, "was ended by signal SIGKILL"):
            cursor.execute("SELECT COUNT(*) FROM T A, T B, T C WHERE A.A + B.A + C.A < 0")

    def test_a_program_that_ends_in_the_middle_of_a_line(self):
        with self.assertRaisesRegex(narumbesi.OperationalError, "ended with status 3; it said: why"):
            self.connect(program=other_program(GREETS + "print(\"1|'x'\\n2|'\", end=''); print('why', file=sys.stderr); sys.exit(3)")).commit()

    def test_a_file_that_cannot_be_closed(self):
        connection = self.connect(program=other_program(
            "import sys\nfor line in sys.stdin:\n  if line[0] == '@': print('00000', flush=True)\nprint('ERROR X0002'); sys.exit(3)"))
        self.refused(narumbesi.OperationalError, "X0002", None, connection.close)
        connection.close()

    def test_a_session_that_cannot_be_made_ready_for_another(self):
        """It is not used again, and its program ends all the same."""
        file = other_program("import sys\nfor line in sys.stdin:\n  if line[0] == '@': print('ERROR X0001' if 'READ WRITE' in line else '00000', flush=True)")
        one, two = self.connect(self.file, program=file), self.connect(self.file, program=file)
        process = one._program._process
        self.refused(narumbesi.OperationalError, "X0001", None, one.close)
        three = self.connect(self.file, program=file)
        self.assertEqual(three._session.number, 3)
        for it in (two, three):
            self.refused(narumbesi.OperationalError, "X0001", None, it.close)
        self.assertEqual(process.wait(20), 0)

    def test_rows_that_are_not_as_many_as_is_said(self):
        with self.assertRaisesRegex(narumbesi.InternalError, "1 rows, and that they are 2"):
            self.connect(program=other_program(GREETS + "print('5\\n(2 rows)', flush=True); time.sleep(60)")).commit()

    def test_an_exit_without_close(self):
        """What is committed is there, the rest is rolled back, and the file is closed before the process ends."""
        script = "import narumbesi; c = narumbesi.connect(%r, program=%r); c.cursor().execute('CREATE TABLE T (A INTEGER)'); c.commit(); c.cursor().execute('INSERT INTO T VALUES (1)')"
        for _ in range(3):
            subprocess.run([sys.executable, "-c", script % (self.file, PROGRAM)], env={**os.environ, "PYTHONPATH": PACKAGE}, check=True, timeout=60)
            connection = self.connect(self.file)
            self.assertEqual(connection.cursor().execute("SELECT A FROM T").fetchall(), [])
            connection.cursor().execute("DROP TABLE T")
            connection.commit()
            connection.close()


class Limits(Test):
    def test_a_call_over_its_time(self):
        connection, other = self.connect(self.file), self.connect(self.file)
        cursor = connection.cursor().execute("CREATE TABLE T (A INTEGER)")
        cursor.executemany("INSERT INTO T VALUES (?)", ((it,) for it in range(3000)))
        connection.commit()
        cursor.execute("INSERT INTO T VALUES (-1)")
        connection.time_limit = 0.2
        begun = time.monotonic()
        with self.assertRaisesRegex(narumbesi.OperationalError, "time limit of 0.2 seconds"):
            cursor.execute("SELECT COUNT(*) FROM T X, T Y WHERE X.A + Y.A < 0")
        self.assertLess(time.monotonic() - begun, 10)
        # The next calls wait for the late answer, and do not take it for theirs.
        connection.time_limit = 60
        self.assertEqual(cursor.execute("SELECT MIN(A) FROM T").fetchall(), [(0,)])
        self.assertEqual(other.cursor().execute("SELECT MAX(A) FROM T").fetchall(), [(2999,)])
        other.rollback()
        other.cursor().execute("DELETE FROM T")

    def test_a_program_that_never_answers(self):
        connection = self.connect(program=other_program(GREETS + "time.sleep(5)"), time_limit=1)
        for call in (connection.commit, connection.close):
            with self.subTest(call=call), self.assertRaisesRegex(narumbesi.OperationalError, "time limit"):
                call()

    def test_a_program_that_does_not_start_in_time(self):
        with self.assertRaisesRegex(narumbesi.OperationalError, "time limit"):
            self.connect(program=other_program("import time; time.sleep(5)"), time_limit=0.5)

    def test_an_interrupt_at_the_terminal_does_not_reach_the_program(self):
        self.assertNotEqual(os.getpgid(self.connect()._program._process.pid), os.getpgrp())

    def test_an_interrupt(self):
        connection = self.connect()
        cursor = connection.cursor().execute("CREATE TABLE T (A INTEGER)")
        cursor.executemany("INSERT INTO T VALUES (?)", ((it,) for it in range(3000)))
        connection.commit()
        cursor.execute("INSERT INTO T VALUES (-1)")
        self.addCleanup(signal.signal, signal.SIGINT, signal.signal(signal.SIGINT, signal.default_int_handler))
        threading.Timer(0.2, os.kill, (os.getpid(), signal.SIGINT)).start()
        with self.assertRaises(KeyboardInterrupt):
            cursor.execute("SELECT COUNT(*) FROM T X, T Y WHERE X.A + Y.A < 0")
        self.assertEqual(cursor.execute("SELECT MIN(A) FROM T").fetchall(), [(0,)])
