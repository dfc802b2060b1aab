"""What the scripts share: the crates of crates.txt, the sources that the program is made from, and the program built here.

The sources are the lines of crates.txt and the folders src/, specs/ and proofs/ of the crates that the program stands on,
without their tests. A change of a test, of an edit, of a document or of the release is none of the sources.
"""
import hashlib
import os
import shutil

TOP = os.path.dirname(os.path.dirname(os.path.realpath(__file__)))
PARTS = ("src", "specs", "proofs")
OUT = f"{TOP}/crates/tpch/out"
# The program as LLVM builds it, and as Rattle's own compiler does.
PROGRAM = f"{OUT}/tpch"
PROGRAMS = (PROGRAM, f"{PROGRAM}.by-rattle")
# The sum of the sources that the program was built from, and the program's own.
STAMP = f"{OUT}/tpch.sources"


def crate_lines(top=TOP):
    """Returns each crate's line of crates.txt by the crate's name, in the order of the file."""
    with open(f"{top}/crates.txt", encoding="utf-8") as file:
        lines = [it.partition("#")[0].strip() for it in file]
    return {it.partition(":")[0].split()[0]: it for it in lines if it}


def libraries(line):
    """Returns the libraries that a line of crates.txt names."""
    return line.partition(":")[2].split()


def crates_below(lines, names):
    """Returns these crates and those that they stand on, in the order of crates.txt."""
    found, left = set(), [*names]
    while left:
        name = left.pop()
        if name not in found:
            found.add(name)
            left += [it for it in libraries(lines[name]) if it in lines]
    return [it for it in lines if it in found]


def program_crates(lines):
    """Returns the crates that the program stands on and its own, in the order of crates.txt."""
    return crates_below(lines, ["tpch"])


def link_or_copy(one, other):
    """Gives a file that rt keeps a second name: rt replaces such a file, and never writes into it."""
    try:
        os.link(one, other)
    except OSError:
        shutil.copy2(one, other)


def copy_over_libraries(names, room):
    """Copies these crates and those below to a folder as rt wants them, with the libraries that rt has built of them here."""
    lines = crate_lines()
    copied = crates_below(lines, names)
    shutil.copyfile(f"{TOP}/HANDLES", f"{room}/HANDLES")
    with open(f"{room}/crates.txt", "w", encoding="utf-8") as file:
        file.writelines(f"{lines[it]}\n" for it in copied)
    for it in copied:
        here, there = f"{TOP}/crates/{it}", f"{room}/crates/{it}"
        for part in PARTS:
            if os.path.isdir(f"{here}/{part}"):
                shutil.copytree(f"{here}/{part}", f"{there}/{part}")
        if os.path.isdir(f"{here}/out/rlib"):
            shutil.copytree(f"{here}/out/rlib", f"{there}/out/rlib", copy_function=link_or_copy)


def source_paths(crate, top=TOP):
    """Returns the folders and files of a crate's sources, in an order that is always the same."""
    folders, files = [], []
    for part in PARTS:
        for at, inner, names in os.walk(f"{top}/crates/{crate}/{part}", followlinks=True):
            if at.endswith(f"/{crate}/src"):
                inner[:] = [it for it in inner if it != "tests"]
                names = [it for it in names if it != "tests.rt"]
            inner.sort()
            folders.append(at)
            files += [f"{at}/{it}" for it in sorted(names)]
    return folders, files


def sum_of_sources(top=TOP):
    """Returns a sum of the names and the bytes of all sources."""
    lines, sum = crate_lines(top), hashlib.sha256()
    for crate in program_crates(lines):
        sum.update(f"{lines[crate]}\n".encode())
        for path in source_paths(crate, top)[1]:
            with open(path, "rb") as file:
                text = file.read()
            sum.update(f"{os.path.relpath(path, top)} {len(text)}\n".encode())
            sum.update(text)
    return sum.hexdigest()


def sum_of_file(path):
    """Returns the SHA-256 of a file's bytes."""
    with open(path, "rb") as file:
        return hashlib.sha256(file.read()).hexdigest()


def git_folder():
    """Returns the folder in which git keeps the state of this checkout, which a worktree only names."""
    git = f"{TOP}/.git"
    if not os.path.isfile(git):
        return git
    with open(git, encoding="utf-8") as file:
        return os.path.join(TOP, file.read().strip().removeprefix("gitdir: "))


def is_of_gate():
    """Returns whether `rt ci` built the program from the sources as they stand: whether it ended later than the last
    rt ci here began, and no source was touched since then. The time of a file's last change of any kind can't be set back."""
    try:
        begin = os.stat(f"{git_folder()}/rt-ci.lock").st_mtime_ns
        if os.stat(PROGRAM).st_mtime_ns < begin or os.path.exists(f"{PROGRAM}.stamp"):
            return False
        paths = [f"{TOP}/crates.txt"]
        for crate in program_crates(crate_lines()):
            folders, files = source_paths(crate)
            paths += [*folders, *files]
        return all(os.stat(it).st_ctime_ns < begin for it in paths)
    except OSError:
        return False


def stamp():
    """Returns what the stamp says of the program, or None."""
    try:
        with open(STAMP, encoding="utf-8") as file:
            return file.read().split()
    except OSError:
        return None


def write_stamp(sum):
    """Notes that the program that stands was built from the sources of this sum."""
    with open(f"{STAMP}.{os.getpid()}", "w", encoding="utf-8") as file:
        file.write(f"{sum}\n{sum_of_file(PROGRAM)}\n")
    os.replace(f"{STAMP}.{os.getpid()}", STAMP)


def is_built(sum):
    """Returns whether the program stands here and was built from the sources of this sum, which are those that stand."""
    if not os.access(PROGRAM, os.X_OK):
        return False
    if stamp() is None and is_of_gate():
        try:
            write_stamp(sum)
        except OSError:
            # (a checkout that can't be written)
            return True
    return stamp() == [sum, sum_of_file(PROGRAM)]
