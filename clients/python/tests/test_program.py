"""What the programs do with their standard streams, with FILE and with the files of scripts, of which
no contract says anything: closed streams, files that are no regular files, and such that are one of
the streams."""
import os
import socket
import subprocess
import tempfile
import unittest

from support import MANY, PROGRAM

SCRIPT = b"CREATE TABLE T (A INTEGER); INSERT INTO T VALUES (1); COMMIT;"
REPLIES = b"00000\n00000 1\n00000\n"
REFUSED = b"ERROR X0002\n"
# A run that waits for something is ended.
SECONDS = 60


class Program(unittest.TestCase):
    def setUp(self):
        folder = tempfile.TemporaryDirectory()
        self.addCleanup(folder.cleanup)
        self.file = os.path.join(folder.name, "tables.db")

    def run_in_shell(self, streams, file=None, script=SCRIPT):
        """Runs the program as a shell does that redirects streams so. FILE is `$1` there."""
        words = ["sh", "-c", 'exec "$0" run ${2+"$2"} ' + streams, PROGRAM, self.file]
        words += [] if file is None else [file]
        return subprocess.run(words, input=script, capture_output=True, timeout=SECONDS)

    def make_file(self):
        ran = self.run_in_shell("", self.file)
        self.assertEqual((ran.returncode, ran.stdout), (0, REPLIES))
        return self.read_file()

    def read_file(self):
        with open(self.file, "rb") as it:
            return it.read()

    def test_closed_output_touches_nothing(self):
        made = self.make_file()
        ran = self.run_in_shell(">&-", self.file)
        self.assertEqual((ran.returncode, ran.stdout), (3, b""))
        self.assertEqual(self.read_file(), made)

    def test_closed_output_makes_no_file(self):
        self.assertEqual(self.run_in_shell(">&-", self.file).returncode, 3)
        self.assertFalse(os.path.exists(self.file))

    def test_closed_input_is_refused(self):
        made = self.make_file()
        ran = self.run_in_shell("<&-", self.file)
        self.assertEqual((ran.returncode, ran.stdout), (3, REFUSED))
        self.assertEqual(self.read_file(), made)

    def test_all_streams_closed(self):
        made = self.make_file()
        self.assertEqual(self.run_in_shell("<&- >&- 2>&-", self.file).returncode, 3)
        self.assertEqual(self.read_file(), made)

    def test_closed_errors_change_nothing(self):
        ran = self.run_in_shell("2>&-", self.file)
        self.assertEqual((ran.returncode, ran.stdout), (0, REPLIES))
        again = self.run_in_shell("2>&-", self.file, b"SELECT A FROM T;")
        self.assertEqual((again.returncode, again.stdout), (0, b"1\n(1 rows)\n"))

    def test_wrong_words_come_before_closed_streams(self):
        words = ["sh", "-c", 'exec "$0" walk >&-', PROGRAM]
        ran = subprocess.run(words, stdin=subprocess.DEVNULL, capture_output=True, timeout=SECONDS)
        self.assertEqual(ran.returncode, 2)

    def test_folder_is_refused(self):
        os.mkdir(self.file)
        self.assert_refused(self.file)

    def test_pipe_is_refused(self):
        os.mkfifo(self.file)
        self.assert_refused(self.file)

    def test_socket_is_refused(self):
        with socket.socket(socket.AF_UNIX) as held:
            held.bind(self.file)
            self.assert_refused(self.file)

    def test_device_is_refused(self):
        self.assert_refused("/dev/null")
        self.assert_refused("/dev/zero")

    def assert_refused(self, file):
        ran = self.run_in_shell("", file)
        self.assertEqual((ran.returncode, ran.stdout), (3, REFUSED))

    def test_file_that_is_the_input(self):
        made = self.make_file()
        ran = self.run_in_shell('< "$1"', self.file)
        self.assertEqual((ran.returncode, ran.stdout), (3, REFUSED))
        self.assertEqual(self.read_file(), made)

    def test_file_that_is_the_output(self):
        made = self.make_file()
        ran = self.run_in_shell('>> "$1"', self.file)
        self.assertEqual((ran.returncode, ran.stdout), (3, b""))
        self.assertEqual(self.read_file(), made)


class SideBySide(unittest.TestCase):
    """The program that carries out scripts side by side: it reads no standard input, keeps no file,
    and reads each script whole before a call is made."""

    def setUp(self):
        folder = tempfile.TemporaryDirectory()
        self.addCleanup(folder.cleanup)
        self.script = os.path.join(folder.name, "one.sql")
        self.other = os.path.join(folder.name, "other.sql")
        with open(self.script, "wb") as it:
            it.write(SCRIPT)

    def run_in_shell(self, streams, *scripts, given=b""):
        """Runs the program over scripts as a shell does that redirects streams so. The first script
        is `$1` there."""
        words = ["sh", "-c", 'exec "$0" "$@" ' + streams, MANY, *scripts]
        return subprocess.run(words, input=given, capture_output=True, timeout=SECONDS)

    def assert_ends(self, ran, status, printed):
        self.assertEqual((ran.returncode, ran.stdout, ran.stderr), (status, printed, b""))

    def read_script(self):
        with open(self.script, "rb") as it:
            return it.read()

    def test_closed_output_touches_nothing(self):
        self.assert_ends(self.run_in_shell(">&-", self.script), 3, b"")
        self.assertEqual(self.read_script(), SCRIPT)

    def test_closed_output_reads_no_script(self):
        os.mkfifo(self.other)
        self.assert_ends(self.run_in_shell(">&-", self.other), 3, b"")

    def test_closed_input_changes_nothing(self):
        self.assert_ends(self.run_in_shell("<&-", self.script), 0, b"-- 1\n" + REPLIES)

    def test_closed_errors_change_nothing(self):
        self.assert_ends(self.run_in_shell("2>&-", self.script), 0, b"-- 1\n" + REPLIES)
        self.assert_ends(self.run_in_shell("<&- 2>&-", self.script), 0, b"-- 1\n" + REPLIES)

    def test_all_streams_closed(self):
        self.assert_ends(self.run_in_shell("<&- >&- 2>&-", self.script), 3, b"")
        self.assertEqual(self.read_script(), SCRIPT)

    def test_wrong_words_come_before_closed_streams(self):
        words = ["sh", "-c", 'exec "$0" --frames 15 "$1" >&-', MANY, self.script]
        ran = subprocess.run(words, stdin=subprocess.DEVNULL, capture_output=True, timeout=SECONDS)
        self.assertEqual((ran.returncode, ran.stdout), (2, b""))

    def test_scripts_that_cannot_be_read(self):
        self.assert_ends(self.run_in_shell("", self.script, self.other), 3, REFUSED)
        os.mkdir(self.other)
        self.assert_ends(self.run_in_shell("", self.script, self.other), 3, REFUSED)

    def test_socket_is_refused(self):
        with socket.socket(socket.AF_UNIX) as held:
            held.bind(self.other)
            self.assert_ends(self.run_in_shell("", self.other), 3, REFUSED)

    def test_empty_device_is_a_script_without_pieces(self):
        self.assert_ends(self.run_in_shell("", "/dev/null", self.script), 0, b"-- 1\n-- 2\n" + REPLIES)

    def test_script_that_is_the_input(self):
        self.assert_ends(self.run_in_shell("", "/dev/stdin", given=SCRIPT), 0, b"-- 1\n" + REPLIES)
        self.assert_ends(self.run_in_shell('< "$1"', self.script), 0, b"-- 1\n" + REPLIES)

    def test_script_that_is_the_output(self):
        self.assert_ends(self.run_in_shell('>> "$1"', self.script), 0, b"")
        self.assertEqual(self.read_script(), SCRIPT + b"-- 1\n" + REPLIES)

    def test_full_output_is_told(self):
        self.assertEqual(self.run_in_shell("> /dev/full", self.script).returncode, 3)
