"""PostgreSQL: a server of its own in a temporary folder, with one session that answers in one
thread.

Its programs are looked for in the path and in /usr/lib/postgresql. It does not run as root, so
root starts it as nobody."""
import glob
import os
import re
import select
import shutil
import signal
import subprocess
import tempfile
import time

from . import child, schema
from .answers import Answer
from .texts import statements

KINDS = {"int": "int", "text": "text", "decimal": "numeric(15, 2)", "date": "date"}
OPTIONS = {
    "listen_addresses": "",
    "fsync": "off",
    "shared_buffers": "2GB",
    "work_mem": "256MB",
    "maintenance_work_mem": "512MB",
    "max_parallel_workers_per_gather": "0",
    "max_parallel_maintenance_workers": "0",
    "autovacuum": "off",
    "jit": "off",
    "max_wal_size": "8GB",
}
END = "its-end"


def programs():
    """The folder of PostgreSQL's programs, or None where it isn't installed."""
    found = glob.glob("/usr/lib/postgresql/*/bin")
    found.sort(key=lambda it: int(re.search(r"/(\d+)/", it)[1]))
    there = shutil.which("initdb")
    return found[-1] if found else os.path.dirname(there) if there else None


class Postgres:
    name = "PostgreSQL"
    is_binary = False

    def __init__(self, folder, has_references=False):
        self.room, self.server, self.psql = tempfile.mkdtemp(), None, None
        try:
            os.chmod(self.room, 0o777)
            self.start()
            self.backend = int(self.send("select pg_backend_pid();")[0])
            begin = self.used()
            self.fill(folder, has_references)
            self.load = self.used() - begin
        except BaseException:
            self.close()
            raise

    def start(self):
        where, user = programs(), "nobody" if os.getuid() == 0 else None
        words = ["-D", f"{self.room}/data", "-A", "trust", "-U", "bench", "--locale=C", "-E", "UTF8"]
        said = subprocess.DEVNULL
        subprocess.run([f"{where}/initdb", *words], check=True, stdout=said, cwd=self.room, user=user)
        options = [it for name, value in OPTIONS.items() for it in ("-c", f"{name}={value}")]
        with open(f"{self.room}/log", "wb") as log:
            self.server = subprocess.Popen(
                [f"{where}/postgres", "-D", f"{self.room}/data", "-k", self.room, *options],
                stdout=log, stderr=log, cwd=self.room, user=user,
                preexec_fn=lambda: child.end_with_parent(signal.SIGQUIT),
            )
        ready = [f"{where}/pg_isready", "-q", "-h", self.room]
        while subprocess.run(ready, check=False).returncode:
            if self.server.poll() is not None:
                with open(f"{self.room}/log", encoding="utf-8") as log:
                    raise RuntimeError(f"PostgreSQL doesn't start: {log.read()[-300:]}")
            time.sleep(0.1)
        words = ["-h", self.room, "-U", "bench", "-X", "-At", "-F", "|", "postgres"]
        self.psql = subprocess.Popen(
            [f"{where}/psql", *words],
            stdin=subprocess.PIPE, stdout=subprocess.PIPE, stderr=subprocess.STDOUT,
            preexec_fn=child.end_with_parent,
        )
        self.pending = b""
        self.send("\\pset null '\\\\N'")

    def fill(self, folder, has_references):
        for table in schema.TABLES:
            self.send(f"create table {table}({schema.definition(table, KINDS)});")
            said = self.copy(table, f"{folder}/{table}.tbl")
            if not said or not said[-1].startswith("COPY"):
                fault = " ".join(said)[:300]
                raise RuntimeError(f"PostgreSQL doesn't read {folder}/{table}.tbl: {fault}")
            self.send(f"alter table {table} add primary key ({', '.join(schema.KEYS[table])});")
            for column in schema.REFERENCES.get(table, []) if has_references else []:
                self.send(f"create index on {table}({column});")
        self.send("analyze;")

    def copy(self, table, path):
        """Puts the rows of a file into a table, without the bar at each line's end: what psql
        says."""
        self.psql.stdin.write(f"copy {table} from stdin with (delimiter '|');\n".encode())
        with open(path, "rb") as file:
            while piece := file.read(1 << 20):
                self.psql.stdin.write((piece + file.readline()).replace(b"|\n", b"\n"))
        return self.send("\\.")

    def version(self):
        return self.send("show server_version;")[0].join(("PostgreSQL ", ""))

    def send(self, text, seconds=None):
        """What psql prints for a text. A statement that takes more seconds of a processor is
        stopped."""
        self.psql.stdin.write(f"{text}\n\\echo {END}\n".encode())
        self.psql.stdin.flush()
        last = self.used() + seconds if seconds else None
        end = f"{END}\n".encode()
        while not (self.pending == end or self.pending.endswith(b"\n" + end)):
            ready, _, _ = select.select([self.psql.stdout], [], [], 0.2)
            if ready:
                piece = os.read(self.psql.stdout.fileno(), 1 << 16)
                if not piece:
                    raise RuntimeError(f"PostgreSQL's session ended: {self.pending.decode()[-300:]}")
                self.pending += piece
            elif last and self.used() > last:
                os.kill(self.backend, signal.SIGINT)
        lines, self.pending = self.pending.decode().split("\n")[:-2], b""
        return lines

    def used(self):
        with open(f"/proc/{self.backend}/schedstat", encoding="ascii") as file:
            return int(file.read().split()[0]) / 1e9

    @staticmethod
    def dialect(text):
        text = text.replace(" day (3)", " day")
        return re.sub(r"substring ?\((\w+) from (\d+) for (\d+)\)", r"substr(\1, \2, \3)", text)

    def ask(self, text, seconds=None, megabytes=None):
        # (no limit of memory: its own settings keep it small)
        begin, start, rows = self.used(), time.monotonic(), None
        for statement in statements(self.dialect(text)):
            lines = self.send(statement + ";", seconds)
            fault = next((it for it in lines if "ERROR" in it), None)
            if fault:
                took = self.used() - begin, time.monotonic() - start
                self.send("drop view if exists revenue0;")
                return Answer(*took, None, "out of time" if "canceling" in fault else fault)
            rows = [it.split("|") for it in lines] if statement.startswith("select") else rows
        return Answer(self.used() - begin, time.monotonic() - start, rows)

    def peak(self):
        """The most memory of the session's process, with the shared pages that it touched."""
        with open(f"/proc/{self.backend}/status", encoding="ascii") as file:
            return int(re.search(r"VmHWM:\s*(\d+)", file.read())[1]) // 1024

    def close(self):
        for process, how in ((self.psql, signal.SIGKILL), (self.server, signal.SIGQUIT)):
            if process:
                process.send_signal(how)
                process.wait()
        shutil.rmtree(self.room, ignore_errors=True)
