"""Many rows in, and out again."""
from support import Test

ROWS, PORTION = 100_000, 10_000


class Many(Test):
    def test_rows_in_and_out(self):
        connection = self.connect(self.file)
        cursor = connection.cursor().execute("CREATE TABLE M (K INTEGER, V VARCHAR(20))")
        connection.commit()
        # A transaction writes 1,024 pages at most, so they go in by portions.
        for first in range(0, ROWS, PORTION):
            with connection:
                cursor.executemany("INSERT INTO M VALUES (?, ?)", ((it, "it's row %d" % it) for it in range(first, first + PORTION)))
                self.assertEqual(cursor.rowcount, PORTION)
        connection.close()
        cursor = self.connect(self.file).cursor().execute("SELECT K, V FROM M ORDER BY K")
        self.assertEqual(cursor.rowcount, ROWS)
        place = 0
        for rows in iter(lambda: cursor.fetchmany(1000), []):
            self.assertEqual(rows, [(it, "it's row %d" % it) for it in range(place, place + 1000)])
            place += 1000
        self.assertEqual(place, ROWS)
