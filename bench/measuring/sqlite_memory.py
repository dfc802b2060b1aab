"""SQLite: a database in the memory of a process of its own, which computes with binary numbers.
(In this process, what it holds would be counted as held by each child that starts later.)"""
import multiprocessing
import re
import resource
import signal
import sqlite3
import time
from decimal import Decimal

from . import child, schema
from .answers import Answer
from .texts import statements

KINDS = {"int": "int", "text": "text", "decimal": "real", "date": "text"}


def constant(found):
    """A sum or difference of two decimals as one: in binary 0.06 + 0.01 is less than 0.07."""
    left, right = Decimal(found[1]), Decimal(found[3])
    return str(left + right if found[2] == "+" else left - right)


def dialect(text):
    text = re.sub(r"\b(\d+\.\d+) ([+-]) (\d+\.\d+)\b", constant, text)
    text = re.sub(r"date\(('[0-9-]+')\)", r"date \1", text)
    moved = r"date ('[0-9-]+') *([+-]) *interval '(\d+)' (day|month|year)( \(3\))?"
    text = re.sub(moved, r"date(\1, '\2\3 \4')", text)
    text = re.sub(r"\bdate ('[0-9-]+')", r"\1", text)
    text = text.replace("count(o_orderkey)", "count(o_orderkey) as c_count")
    text = text.replace("as c_orders (c_custkey, c_count)", "as c_orders")
    text = re.sub(r"extract ?\(year from (\w+)\)", r"cast(substr(\1, 1, 4) as int)", text)
    return re.sub(r"substring ?\((\w+) from (\d+) for (\d+)\)", r"substr(\1, \2, \3)", text)


def fill(database, folder):
    for table in schema.TABLES:
        columns, keys = schema.definition(table, KINDS), schema.KEYS[table]
        # A key of one column is the table's own order; `int primary key` would be an index beside
        # the table.
        if len(keys) == 1:
            columns = columns.replace(f"{keys[0]} int", f"{keys[0]} integer primary key")
        else:
            columns += f", primary key ({', '.join(keys)})"
        database.execute(f"create table {table}({columns})")
        width = len(schema.columns(table))
        with open(f"{folder}/{table}.tbl", encoding="ascii") as file:
            rows = (line.rstrip("\n").split("|")[:width] for line in file)
            database.executemany(f"insert into {table} values({','.join('?' * width)})", rows)
    database.execute("analyze")


def ask(database, text, seconds):
    """The answer to a text, which is stopped after so many seconds of a processor."""
    begin, start, rows = time.process_time(), time.monotonic(), None
    is_over = lambda: seconds and time.process_time() - begin > seconds
    database.set_progress_handler(is_over, 1000000)
    try:
        for statement in statements(dialect(text)):
            found = database.execute(statement).fetchall()
            rows = found if statement.startswith("select") else rows
    except sqlite3.OperationalError as fault:
        took = time.process_time() - begin, time.monotonic() - start
        database.execute("drop view if exists revenue0")
        return Answer(*took, None, "out of time" if "interrupted" in str(fault) else str(fault))
    took = time.process_time() - begin, time.monotonic() - start
    return Answer(*took, [["\\N" if it is None else str(it) for it in row] for row in rows])


def serve(there, folder):
    child.end_with_parent()
    for each in (signal.SIGINT, signal.SIGTERM, signal.SIGHUP):
        signal.signal(each, signal.SIG_DFL)
    database, begin = sqlite3.connect(":memory:"), time.process_time()
    fill(database, folder)
    there.send(time.process_time() - begin)
    while (call := there.recv()) is not None:
        peak = resource.getrusage(resource.RUSAGE_SELF).ru_maxrss // 1024
        there.send(peak if call == "peak" else ask(database, *call))


class Sqlite:
    name = "SQLite"
    is_binary = True

    def __init__(self, folder):
        self.here, there = multiprocessing.Pipe()
        self.process = multiprocessing.Process(target=serve, args=(there, folder), daemon=True)
        self.process.start()
        # (only the child holds its end now, so `recv` ends where the child does)
        there.close()
        try:
            self.load = self.here.recv()
        except EOFError:
            raise RuntimeError(f"SQLite doesn't read the tables in {folder}") from None

    @staticmethod
    def version():
        return f"SQLite {sqlite3.sqlite_version}"

    def ask(self, text, seconds=None, megabytes=None):
        self.here.send((text, seconds))
        return self.here.recv()

    def peak(self):
        self.here.send("peak")
        return self.here.recv()

    def close(self):
        self.process.kill()
        self.process.join()
