#!/usr/bin/env python3
"""Keeps a log of measurements in a file, by the client for Python (clients/python).

  measurements.py FILE add SENSOR NUMBER [NUMBER ..]    adds measurements of a sensor
  measurements.py FILE report                           prints of each sensor how many, the least, the
                                                        greatest and the last
  measurements.py FILE last SENSOR COUNT                prints its last ones, newest first

SQLSH in the environment is the program; left out, it is sqlsh on the path. To find the client:
pip install ./clients/python, or PYTHONPATH=clients/python.
"""
import os
import random
import sys
import time

import narumbesi

TABLE = """CREATE TABLE MEASUREMENTS (
  SENSOR VARCHAR(40) NOT NULL,
  PLACE INTEGER NOT NULL,
  MEASURED INTEGER NOT NULL,
  PRIMARY KEY (SENSOR, PLACE),
  CONSTRAINT NAMED CHECK (SENSOR <> ''))"""
TRIES = 1000


def in_transaction(connection, work):
    """Does the work with a cursor and commits, and answers what it answered. Where another
    transaction was first, it does the whole work again."""
    for left in reversed(range(TRIES)):
        try:
            with connection:
                return work(connection.cursor())
        except narumbesi.OperationalError as error:
            if not error.is_retryable or not left:
                raise
            time.sleep(random.random() / 1000)


def open_log(file):
    """A connection to the log, which is made where there is none."""
    connection = narumbesi.connect(file, program=os.environ.get("SQLSH", "sqlsh"))

    def make_table(cursor):
        try:
            cursor.execute("SELECT COUNT(*) FROM MEASUREMENTS")
        except narumbesi.ProgrammingError as error:
            if error.reason != "name":
                raise
            cursor.execute(TABLE)

    in_transaction(connection, make_table)
    return connection


def add(connection, sensor, numbers):
    """Adds these numbers behind those that the sensor has. Two who add at once would take the same
    places: one of them is refused, and reads again which is the last."""
    def insert(cursor):
        last = cursor.execute("SELECT MAX(PLACE) FROM MEASUREMENTS WHERE SENSOR = ?", (sensor,)).fetchone()[0] or 0
        rows = [(sensor, last + place, number) for place, number in enumerate(numbers, 1)]
        return cursor.executemany("INSERT INTO MEASUREMENTS VALUES (?, ?, ?)", rows).rowcount

    return in_transaction(connection, insert)


def report(connection):
    """Of each sensor its name, how many measurements it has, the least, the greatest and the last."""
    query = """SELECT M.SENSOR, G.N, G.LEAST_ONE, G.GREATEST_ONE, M.MEASURED
      FROM MEASUREMENTS M, (SELECT SENSOR, COUNT(*) N, MIN(MEASURED) LEAST_ONE, MAX(MEASURED) GREATEST_ONE, MAX(PLACE) LAST_ONE
                            FROM MEASUREMENTS GROUP BY SENSOR) G
      WHERE M.SENSOR = G.SENSOR AND M.PLACE = G.LAST_ONE ORDER BY SENSOR"""
    return in_transaction(connection, lambda cursor: cursor.execute(query).fetchall())


def last(connection, sensor, count):
    """The last measurements of a sensor, newest first."""
    query = "SELECT PLACE, MEASURED FROM MEASUREMENTS WHERE SENSOR = ? ORDER BY PLACE DESC"
    return in_transaction(connection, lambda cursor: cursor.execute(query, (sensor,)).fetchmany(count))


def carry_out(connection, command, words):
    """Prints what a command answers."""
    if command == "add" and len(words) > 1:
        print("%d added" % add(connection, words[0], [int(it) for it in words[1:]]))
    elif command == "report" and not words:
        for row in report(connection):
            print("%s: %d measurements, from %d to %d, the last %d" % row)
    elif command == "last" and len(words) == 2:
        for place, number in last(connection, words[0], int(words[1])):
            print("%d: %d" % (place, number))
    else:
        raise ValueError("unknown command")


def main(words):
    if len(words) < 2:
        print(__doc__, end="")
        return 2
    try:
        connection = open_log(words[0])
        try:
            carry_out(connection, words[1], words[2:])
        finally:
            connection.close()
    except (narumbesi.Error, ValueError) as error:
        print("measurements: %s" % error, file=sys.stderr)
        return 1
    return 0


if __name__ == "__main__":
    sys.exit(main(sys.argv[1:]))
