"""The program that is measured.

It reads the tables anew in each run, the last of them lineitem, and prints its answers together at
its end. So a run's own time is counted from when it has read the bytes of all tables; what a run
of a script without statements takes from there on is taken off. A short text is asked many times
in one script."""
import os
import shutil
import subprocess
import tempfile

from . import child, schema
from .answers import Answer, answers_of

# A script has a text so many times that its answers take about this long, but at most so often.
LEAST_SECONDS, MOST_TIMES = 0.5, 200


class Program:
    name = "tpch"
    is_binary = False

    def __init__(self, path, folder, threads=1):
        self.path, self.folder = path, folder
        self.processors = sorted(os.sched_getaffinity(0))[:threads]
        self.room = tempfile.mkdtemp()
        self.size = sum(os.path.getsize(f"{folder}/{table}.tbl") for table in schema.TABLES)
        self.answers, self.times, self.memory = {}, {}, {}
        empty = [self.run("", 1, is_watched=False) for _ in range(3)]
        begun = [self.run("", 1) for _ in range(3)]
        for run in empty + begun:
            if run.status:
                said = self.said()[:200].strip()
                raise RuntimeError(f"{path} ends with status {run.status} over {folder}: {said}")
        self.load = min(it.processor for it in empty)
        self.load_clock = min(it.clock for it in empty)
        self.load_memory = min(it.memory for it in empty)
        self.rest = min(it.processor_after for it in begun)
        self.rest_clock = min(it.clock_after for it in begun)

    def version(self):
        """The commit of the program's sources; its path, where another program is measured."""
        shipped = child.shipped_commit(self.path)
        if shipped:
            return f"tpch as shipped, of commit {shipped[:8]}"
        if os.environ.get("PROGRAM"):
            return f"tpch ({self.path})"
        words = ["git", "-C", child.TOP, "rev-parse", "--short=8", "HEAD"]
        commit = subprocess.run(words, capture_output=True, text=True, check=False).stdout.strip()
        return f"tpch at commit {commit or 'unknown'}"

    def run(self, text, times, seconds=None, megabytes=None, is_watched=True):
        """A run of a script that has the text that many times."""
        with open(f"{self.room}/script", "w", encoding="ascii") as script:
            script.write(text * times)
        with open(f"{self.room}/out", "wb") as out:
            words = [self.path, "session", self.folder, f"{self.room}/script"]
            files = (f"{self.folder}/lineitem.tbl", self.size) if is_watched else None
            return child.run(words, out, files, self.processors, seconds, megabytes)

    def said(self):
        with open(f"{self.room}/out", encoding="ascii", errors="replace") as file:
            return file.read()

    def own(self, run, times):
        """The seconds of each answer, of a processor and by the clock."""
        processor, clock = run.processor_after - self.rest, run.clock_after - self.rest_clock
        if run.processor - processor > 4 * self.load + 1:
            raise RuntimeError(f"{self.path} doesn't read the tables before it answers")
        return max(processor, 0) / times, max(clock, 0) / times

    def rows(self, text):
        """The rows of the text's last answer, or why there are none."""
        found = [it for it in answers_of(self.said()) if it != "done"]
        last = found[-1] if found else "no answer"
        return (last, "") if isinstance(last, list) else (None, last)

    def first(self, text, seconds=None, megabytes=None):
        """Asks a text for the first time: its rows, its memory, and how often it is to be asked
        in one script."""
        run = self.run(text, 1, seconds and seconds + self.load, megabytes)
        self.memory[text] = run.memory
        if run.status < 0:
            self.answers[text] = None, "out of time"
        elif run.status == 6:
            self.answers[text] = None, "out of memory"
        else:
            self.answers[text] = self.rows(text)
        processor, clock = self.own(run, 1)
        self.times[text] = max(1, min(MOST_TIMES, round(LEAST_SECONDS / max(processor, 0.0001))))
        return Answer(processor, clock, *self.answers[text])

    def ask(self, text, seconds=None, megabytes=None):
        if text not in self.times:
            answer = self.first(text, seconds, megabytes)
            if answer.rows is None or self.times[text] == 1:
                return answer
        times = self.times[text]
        return Answer(*self.own(self.run(text, times), times), *self.answers[text])

    def peak(self):
        return max(self.memory.values(), default=self.load_memory)

    def close(self):
        shutil.rmtree(self.room, ignore_errors=True)
