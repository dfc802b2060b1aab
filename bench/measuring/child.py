"""Children of this process: how they are started, measured and ended, and which program is
measured.

A child ends where this process ends, however that happens. Its processor seconds are those of
all its threads, user and system."""
import atexit
import ctypes
import hashlib
import os
import resource
import select
import shutil
import signal
import subprocess
import sys
import time
from typing import NamedTuple

TOP = os.path.dirname(os.path.dirname(os.path.dirname(os.path.realpath(__file__))))
LIBC = ctypes.CDLL(None, use_errno=True)
PR_SET_PDEATHSIG = 1
IN_ACCESS = 0x1


def chosen():
    """The path of the program that ./tpch runs, which is built where it isn't there."""
    if not os.path.exists(f"{TOP}/tools/program"):
        done = subprocess.run([f"{TOP}/tools/build"], check=False)
        path = f"{TOP}/crates/tpch/out/tpch"
    else:
        words = [f"{TOP}/tools/program"]
        done = subprocess.run(words, stdout=subprocess.PIPE, text=True, check=False)
        path = done.stdout.strip()
    if done.returncode:
        sys.exit("there is no program: PROGRAM=path names one")
    if not path.startswith(f"{TOP}/"):
        # (a copy that was unpacked for this run)
        atexit.register(shutil.rmtree, os.path.dirname(path), ignore_errors=True)
    return path


def program():
    """The path of the program: the one that the variable PROGRAM names, or the one that ./tpch
    runs."""
    path = os.environ.get("PROGRAM") or chosen()
    try:
        with open(path, "rb") as file:
            is_script = file.read(2) == b"#!"
    except OSError as fault:
        sys.exit(f"the program {path} can't be read: {fault.strerror}")
    if is_script:
        sys.exit(f"{path} is a script: PROGRAM must name the program that it starts")
    return os.path.realpath(path)


def shipped_commit(path):
    """The commit that release/SUMS names, where the program at a path is the shipped one."""
    try:
        with open(f"{TOP}/release/SUMS", encoding="ascii") as file:
            said = dict(it.split(None, 1) for it in file if it.strip())
        with open(path, "rb") as file:
            sum_of_it = hashlib.sha256(file.read()).hexdigest()
    except OSError:
        return None
    is_shipped = said.get("program", "").strip() == sum_of_it
    return said.get("commit", "").strip() if is_shipped else None


def end_with_parent(how=signal.SIGKILL):
    """To be called in a child before it becomes another program: it gets this signal when its
    parent ends."""
    LIBC.prctl(PR_SET_PDEATHSIG, how)


def end_cleanly_on_signals():
    """Lets the signals that end this process unwind it, so that its servers and folders go too."""
    for each in (signal.SIGTERM, signal.SIGHUP, signal.SIGINT):
        signal.signal(each, lambda number, _: sys.exit(128 + number))


def prefer_this_process():
    """Lets this process go before all others where it may, so that it sees at once what a child
    does. Children don't inherit it."""
    try:
        os.sched_setscheduler(0, os.SCHED_FIFO | os.SCHED_RESET_ON_FORK, os.sched_param(1))
    except OSError:
        pass


def processor_seconds(pid):
    """The processor seconds of a process until now, with those of its threads that have ended."""
    return time.clock_gettime((~pid << 3) | 2)


class Run(NamedTuple):
    """What a run took: processor seconds, seconds by the clock, the most memory in MB, its exit
    status (below 0 the signal that ended it); and where its reading was watched, the two times
    since it had read its files, otherwise the whole."""

    processor: float
    clock: float
    memory: int
    status: int
    processor_after: float
    clock_after: float


def bytes_read(pid):
    """The bytes that a process has read until now."""
    with open(f"/proc/{pid}/io", encoding="ascii") as file:
        return int(file.readline().split()[1])


class Watch:
    """Tells when a process has read so many bytes. It looks whenever anything reads a file, which
    should be the last that the process reads. (When the file is closed would say nothing: a
    program may keep it open until its end.)"""

    def __init__(self, path, size):
        self.size, self.descriptor = size, LIBC.inotify_init1(os.O_CLOEXEC)
        name = os.fsencode(path)
        if LIBC.inotify_add_watch(self.descriptor, name, IN_ACCESS) < 0:
            raise OSError(ctypes.get_errno(), os.strerror(ctypes.get_errno()), path)

    def wait(self, pid):
        """The processor seconds of a process and the clock when it has read the bytes, or nothing
        where it ends before."""
        ended = os.pidfd_open(pid)
        try:
            while ended not in select.select([self.descriptor, ended], [], [])[0]:
                now = processor_seconds(pid), time.monotonic()
                os.read(self.descriptor, 1 << 16)
                if bytes_read(pid) >= self.size:
                    return now
            return None
        finally:
            os.close(ended)

    def close(self):
        os.close(self.descriptor)


def prepare(processors, seconds, megabytes):
    """What a child does before it becomes the program: it takes these processors and limits."""
    end_with_parent()
    if processors:
        os.sched_setaffinity(0, processors)
    if seconds:
        resource.setrlimit(resource.RLIMIT_CPU, (int(seconds) + 1, int(seconds) + 2))
    if megabytes:
        resource.setrlimit(resource.RLIMIT_AS, (megabytes << 20, megabytes << 20))


def run(words, out=None, watched=None, processors=None, seconds=None, megabytes=None):
    """Runs a command to its end and measures it. `out` takes its standard output (else this
    process's), `watched` has the last file that it reads and the bytes of all of them, whose
    reading splits the time; `seconds` of a processor and `megabytes` of addresses are the most
    that it gets."""
    watch = Watch(*watched) if watched else None
    begin, mark, child = time.monotonic(), None, None
    try:
        first = lambda: prepare(processors, seconds, megabytes)
        child = subprocess.Popen(words, stdout=out, preexec_fn=first)
        if watch:
            mark = watch.wait(child.pid)
        _, status, used = os.wait4(child.pid, 0)
        child.returncode = os.waitstatus_to_exitcode(status)
    finally:
        if watch:
            watch.close()
        if child and child.returncode is None:
            child.kill()
            child.wait()
    end, processor = time.monotonic(), used.ru_utime + used.ru_stime
    before, split = mark or (0.0, begin)
    memory, status = used.ru_maxrss // 1024, child.returncode
    return Run(processor, end - begin, memory, status, processor - before, end - split)
