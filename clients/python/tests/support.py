"""What the tests have in common: the programs that they are run over, folders, and waiting."""
import os
import shutil
import tempfile
import threading
import unittest

import narumbesi

TOP = os.path.dirname(os.path.dirname(os.path.dirname(os.path.dirname(os.path.realpath(__file__)))))
PACKAGE = TOP + "/clients/python"
# tools/client_tests says which programs these are: sqlsh and sqlmany.
PROGRAM = os.environ["NARUMBESI_TEST_PROGRAM"]
MANY = os.environ["NARUMBESI_TEST_MANY"]
LIMIT = 60


class Test(unittest.TestCase):
    """A test with a folder for its files."""

    def setUp(self):
        self.folder = tempfile.mkdtemp(prefix="narumbesi-")
        self.addCleanup(shutil.rmtree, self.folder)
        self.file = self.folder + "/tables.db"

    def connect(self, file=None, **words):
        """A connection that is closed at the end of the test, if it is not before; to tables in
        memory where no file is named."""
        connection = narumbesi.connect(file, **{"program": PROGRAM, "time_limit": LIMIT, **words})
        self.addCleanup(close_quietly, connection)
        return connection

    def refused(self, kind, code, reason, call, *words):
        """Looks that the call raises this exception, with this code and reason, and gives it."""
        with self.assertRaises(kind) as raised:
            call(*words)
        self.assertIs(type(raised.exception), kind)
        self.assertEqual((raised.exception.code, raised.exception.reason), (code, reason))
        return raised.exception


def close_quietly(connection):
    try:
        connection.close()
    except narumbesi.Error:
        pass


def side_by_side(works):
    """Carries these out on a thread each, and raises what one of them raised."""
    raised = []

    def carry_out(work):
        try:
            work()
        except BaseException as error:  # noqa: BLE001
            raised.append(error)

    threads = [threading.Thread(target=carry_out, args=(it,)) for it in works]
    for it in threads:
        it.start()
    for it in threads:
        it.join()
    if raised:
        raise raised[0]
