"""The shipped program: release/tpch.xz, and what release/SUMS says of it.

SUMS has a line each: `sources`, the sum of the sources that the program was built from; `program`, its SHA-256; `size`, its
bytes; `kit`, as `rt version` prints it; `kit-sums`, what the kit was made from; and `commit`, of which the sources are.
"""
import hashlib
import os
import subprocess
import tempfile

try:
    import lzma
except ImportError:
    # (a python3 that was compiled without it)
    lzma = None

from repository import TOP, sum_of_file

FOLDER = f"{TOP}/release"
ARCHIVE, SUMS = f"{FOLDER}/tpch.xz", f"{FOLDER}/SUMS"
# The program, unpacked by its first run.
UNPACKED = f"{FOLDER}/out/tpch"
USAGE_STATUS = 2


class Refused(Exception):
    """Why the shipped program can't be run here."""


def sums():
    """Returns the words of SUMS by the first word of their lines; nothing where there is no release."""
    try:
        with open(SUMS, encoding="utf-8") as file:
            words = [it.split(None, 1) for it in file if it.strip()]
    except (OSError, UnicodeDecodeError):
        return {}
    return {it[0]: it[1].strip() for it in words if len(it) == 2}


def is_other_machine():
    """Returns whether this isn't x86_64 Linux, for which the program is."""
    here = os.uname()
    return (here.sysname, here.machine) != ("Linux", "x86_64")


def decompressed(most):
    """Returns the bytes of release/tpch.xz, or the first of them where they are more than most."""
    if lzma:
        with lzma.open(ARCHIVE) as file:
            return file.read(most + 1)
    with subprocess.Popen(["xz", "-dc", ARCHIVE], stdout=subprocess.PIPE, stderr=subprocess.DEVNULL) as xz:
        return xz.stdout.read(most + 1)


def unpacked_bytes(said):
    """Returns the bytes of the program, once they are those that SUMS names."""
    try:
        program = decompressed(int(said["size"]))
    except (OSError, EOFError, ValueError, KeyError, MemoryError, OverflowError, lzma.LZMAError if lzma else OSError) as error:
        raise Refused(f"release/tpch.xz can't be unpacked ({error})") from error
    if hashlib.sha256(program).hexdigest() != said.get("program"):
        raise Refused("release/tpch.xz isn't the program that release/SUMS names")
    return program


def put(program, folder):
    """Writes the program into a folder under its name, whole or not at all, and returns its path."""
    os.makedirs(folder, exist_ok=True)
    handle, path = tempfile.mkstemp(prefix="tpch-", dir=folder)
    try:
        with open(handle, "wb") as file:
            file.write(program)
        os.chmod(path, 0o755)
        os.replace(path, f"{folder}/tpch")
    except OSError:
        os.remove(path)
        raise
    return f"{folder}/tpch"


def try_start(path):
    """Starts the program without words, and refuses it where it doesn't answer as it does anywhere."""
    try:
        ran = subprocess.run([path], stdin=subprocess.DEVNULL, capture_output=True, timeout=20, check=False)
    except (OSError, subprocess.TimeoutExpired) as error:
        raise Refused(f"the shipped program doesn't start here ({error})") from error
    if ran.returncode != USAGE_STATUS:
        said = ran.stderr.decode(errors="replace").strip().splitlines()
        raise Refused(f"the shipped program doesn't start here ({said[0] if said else f'status {ran.returncode}'})")


def put_apart(program):
    """Writes the program into a new temporary folder, and returns its path."""
    folder = tempfile.mkdtemp(prefix="tpch-release-")
    try:
        return put(program, folder)
    except OSError:
        os.rmdir(folder)
        raise


def is_apart(path):
    """Returns whether the program was put into a temporary folder."""
    return not path.startswith(f"{TOP}/")


def remove(path):
    """Removes an unpacked program, with its folder where that is a temporary one."""
    os.remove(path)
    if is_apart(path):
        os.rmdir(os.path.dirname(path))


def remove_apart(path):
    """Removes the program where it was put into a temporary folder."""
    if is_apart(path):
        remove(path)


def is_unpacked(said):
    """Returns whether an earlier call has unpacked the program that SUMS names."""
    try:
        return os.access(UNPACKED, os.X_OK) and sum_of_file(UNPACKED) == said.get("program")
    except OSError:
        return False


def unpack(said):
    """Returns the path of the unpacked program: in release/out/, or, where that can't be written, in a new temporary folder."""
    if is_unpacked(said):
        return UNPACKED
    program = unpacked_bytes(said)
    try:
        path = put(program, os.path.dirname(UNPACKED))
    except OSError as error:
        try:
            path = put_apart(program)
        except OSError:
            raise error from None
    try:
        try_start(path)
    except Refused:
        # (else a later call would take it for one that was tried)
        remove(path)
        raise
    return path
