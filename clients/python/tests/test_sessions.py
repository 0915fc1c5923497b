"""Connections that share a program: sessions, snapshots, threads, forks."""
import gc
import os
import threading
import time

import narumbesi
from support import PROGRAM, Test, side_by_side

THREADS, ADDITIONS = 4, 100


class Sharing(Test):
    def test_one_program_for_a_file(self):
        one = self.connect(self.file)
        os.symlink(self.file, self.folder + "/link")
        others = [self.connect(self.file), self.connect(self.folder + "/./tables.db"), self.connect(self.folder + "/link")]
        self.assertTrue(all(it._program is one._program for it in others))
        self.assertEqual([it._session.number for it in (one, *others)], [1, 2, 3, 4])
        self.assertIsNot(self.connect(self.folder + "/other")._program, one._program)
        self.assertIsNot(self.connect()._program, self.connect()._program)

    def test_the_program_ends_with_its_last_connection(self):
        one, two = self.connect(self.file), self.connect(self.file)
        process = one._program._process
        one.close()
        self.assertIsNone(process.poll())
        two.close()
        self.assertEqual(process.returncode, 0)
        again = self.connect(self.file)
        self.assertIsNot(again._program, one._program)

    def test_other_words_for_a_file_that_is_open(self):
        self.connect(self.file)
        with self.assertRaisesRegex(narumbesi.InterfaceError, "open by other words"):
            self.connect(self.file, frames=64)

    def test_each_has_its_snapshot_and_transaction(self):
        one, two = self.connect(self.file), self.connect(self.file)
        first, second = one.cursor(), two.cursor()
        first.execute("CREATE TABLE T (A INTEGER)")
        one.commit()
        self.assertEqual(second.execute("SELECT A FROM T").fetchall(), [])
        first.execute("INSERT INTO T VALUES (1)")
        one.commit()
        self.assertEqual(second.execute("SELECT A FROM T").fetchall(), [])
        self.assertEqual(first.execute("SELECT A FROM T").fetchall(), [(1,)])
        two.rollback()
        self.assertEqual(second.execute("SELECT A FROM T").fetchall(), [(1,)])

    def test_a_number_is_used_again_as_if_new(self):
        keeper, one = self.connect(self.file), self.connect(self.file)
        keeper.cursor().execute("CREATE TABLE T (A INTEGER)")
        keeper.commit()
        one.cursor().execute("INSERT INTO T VALUES (1)")
        one.close()
        two = self.connect(self.file)
        self.assertEqual(two._session.number, 2)
        two.cursor().execute("SET TRANSACTION READ ONLY")
        two.close()
        three = self.connect(self.file)
        self.assertEqual(three._session.number, 2)
        three.cursor().execute("INSERT INTO T VALUES (3)")
        three.commit()
        self.assertEqual(keeper.cursor().execute("SELECT A FROM T").fetchall(), [(3,)])

    def test_a_call_that_comes_too_late_is_none_of_who_has_the_number_now(self):
        keeper, one = self.connect(self.file), self.connect(self.file)
        late = one._session
        one.close()
        two = self.connect(self.file)
        self.assertEqual(two._session.number, late.number)
        with self.assertRaisesRegex(narumbesi.InterfaceError, "closed"):
            keeper._program.call(late, "CREATE TABLE T (A INTEGER)")
        self.refused(narumbesi.ProgrammingError, "42000", "name", two.cursor().execute, "SELECT A FROM T")

    def test_at_most_64(self):
        all_of_them = [self.connect(self.file) for _ in range(64)]
        self.refused(narumbesi.OperationalError, "X0003", "sessions", self.connect, self.file)
        all_of_them[-1].cursor().execute("CREATE TABLE T (A INTEGER)")
        all_of_them[40].close()
        self.assertEqual(self.connect(self.file)._session.number, 41)

    def test_one_that_is_thrown_away_is_closed(self):
        keeper, one = self.connect(self.file), narumbesi.connect(self.file, program=PROGRAM)
        one.cursor().execute("CREATE TABLE T (A INTEGER)")
        self.refused(narumbesi.OperationalError, "40001", None, keeper.cursor().execute, "CREATE TABLE S (A INTEGER)")
        del one
        gc.collect()
        keeper.cursor().execute("CREATE TABLE S (A INTEGER)")
        self.assertEqual(self.connect(self.file)._session.number, 2)

    def test_the_last_one_that_is_thrown_away_ends_the_program(self):
        process = narumbesi.connect(self.file, program=PROGRAM)._program._process
        gc.collect()
        self.assertEqual(process.wait(20), 0)
        self.connect(self.file)


class Threads(Test):
    def test_a_counter_ends_exact(self):
        """Threads with a connection each add to one row, and try again where another was first."""
        with self.connect(self.file) as connection:
            connection.cursor().execute("CREATE TABLE C (N INTEGER)").execute("INSERT INTO C VALUES (0)")
        connections = [self.connect(self.file) for _ in range(THREADS)]
        tries = []

        def add(mine):
            for _ in range(ADDITIONS):
                while True:
                    tries.append(1)
                    try:
                        with mine:
                            number = mine.cursor().execute("SELECT N FROM C").fetchone()[0]
                            mine.cursor().execute("UPDATE C SET N = ?", (number + 1,))
                        break
                    except narumbesi.OperationalError as error:
                        if not error.is_retryable:
                            raise

        side_by_side([lambda mine=it: add(mine) for it in connections])
        self.assertEqual(connection.cursor().execute("SELECT N FROM C").fetchall(), [(THREADS * ADDITIONS,)])
        self.assertGreaterEqual(len(tries), THREADS * ADDITIONS)

    def test_threads_share_a_connection(self):
        connection = self.connect()
        connection.cursor().execute("CREATE TABLE T (A INTEGER)")

        def insert(first):
            for it in range(ADDITIONS):
                connection.cursor().execute("INSERT INTO T VALUES (?)", (first + it,))

        side_by_side([lambda first=it: insert(first) for it in range(0, THREADS * ADDITIONS, ADDITIONS)])
        count, total = connection.cursor().execute("SELECT COUNT(*), SUM(A) FROM T").fetchone()
        self.assertEqual((count, total), (THREADS * ADDITIONS, sum(range(THREADS * ADDITIONS))))

    def test_connections_come_and_go(self):
        """The program ends and is started again while others ask for it."""
        with self.connect(self.file) as connection:
            connection.cursor().execute("CREATE TABLE T (A INTEGER)").execute("INSERT INTO T VALUES (7)")
        connection.close()

        def come_and_go():
            for _ in range(20):
                mine = narumbesi.connect(self.file, program=PROGRAM, time_limit=60)
                try:
                    self.assertEqual(mine.cursor().execute("SELECT A FROM T").fetchall(), [(7,)])
                finally:
                    mine.close()

        side_by_side([come_and_go] * THREADS)


class Forks(Test):
    def test_a_child_leaves_the_program_alone(self):
        connection = self.connect(self.file)
        connection.cursor().execute("CREATE TABLE T (A INTEGER)")
        child = os.fork()
        if not child:
            self.be_child(connection)
        self.assertEqual(os.waitstatus_to_exitcode(os.waitpid(child, 0)[1]) if hasattr(os, "waitstatus_to_exitcode") else os.waitpid(child, 0)[1], 0)
        connection.commit()
        self.assertEqual(connection.cursor().execute("SELECT A FROM T").fetchall(), [])

    def be_child(self, connection):
        status = 1
        try:
            connection.commit()
        except narumbesi.InterfaceError:
            other = narumbesi.connect(self.folder + "/other", program=PROGRAM, time_limit=20)
            other.cursor().execute("CREATE TABLE T (A INTEGER)")
            other.close()
            status = 0
        finally:
            os._exit(status)

    def test_a_child_that_lives_on_does_not_hold_the_program(self):
        connection = self.connect(self.file)
        child = os.fork()
        if not child:
            time.sleep(30)
            os._exit(0)
        try:
            begun = time.monotonic()
            connection.close()
            self.assertLess(time.monotonic() - begun, 20)
        finally:
            os.kill(child, 9)
            os.waitpid(child, 0)


class Order(Test):
    def test_calls_are_made_in_turn(self):
        """A long call of one connection delays, and does not mix with, those of another."""
        slow, quick = self.connect(self.file), self.connect(self.file)
        cursor = slow.cursor().execute("CREATE TABLE T (A INTEGER)")
        cursor.executemany("INSERT INTO T VALUES (?)", ((it,) for it in range(500)))
        slow.commit()
        begun, counts = threading.Event(), []

        def count():
            begun.set()
            counts.append(slow.cursor().execute("SELECT COUNT(*) FROM T X, T Y WHERE X.A < Y.A").fetchone()[0])

        def ask():
            begun.wait()
            for it in range(50):
                self.assertEqual(quick.cursor().execute("SELECT A FROM T WHERE A = ?", (it,)).fetchall(), [(it,)])

        side_by_side([count, ask])
        self.assertEqual(counts, [500 * 499 // 2])
