"""Pages of cases: their format, and reading them.

A page (`cases/TOPIC.txt`) begins with a heading and a sentence that says where the texts come from.
Then come named sets of files, and cases:

    files two_orders
    -- d/orders.tbl
    7|1|O|10.00|1996-01-02|1-URGENT|K|0|x|

    == a customer without orders counts none
    over two_orders
    run session d s
    -- s
    select c_custkey from customer;
    -- out 0
    [1] version 0 rows 0

Each case has a folder of its own, with the folder `d` in it, where the eight tables are empty until
they are given. Lines of a case before its first `--`:

- `# TEXT` says why,
- `over NAME` gives the files of a set, `over number N` the tables that `make_data N` writes, and
  `over folder PATH` the files of a folder of the repository (both lie in `d`),
- `without NAME` takes a file or the folder `d` away, and `folder NAME` makes a folder of that name,
- `twice` runs it twice, and the second run must print the same,
- `into FILE` gives the program that file for its standard output: nothing of it is compared,
- `run WORD..` gives the program's words, quoted as a shell does where they have blanks,
  `show WORD..` the same where it is started under the name `show_plan`, and `make WORD..` runs the
  program `make_data` with these words instead.

`-- FILE` gives a file's lines. `-- out STATUS` gives the exit status and all that is printed;
`-- head STATUS` the first line, where * is any text, and `-- end STATUS` what is printed from the line
`refresh 1` on. A case with several of these passes where one of them agrees (`-- one of STATUS` is another name for
`out` there). `-- after FILE` gives what a file has after the run, and `-- line N FILE` its lines from
the Nth on; all of these must agree.

The header of a text may end with a word that says how its lines are read: `escaped` knows \\r \\n
\\t \\xNN \\\\ and no other line ends; `repeat` has lines `COUNT TEXT`, with TEXT escaped, and lines
`FIRST-LAST TEXT`, where each # in TEXT is the number. In `-- one of STATUS choice` the lines that
begin with `| ` are choices, escaped: of those that follow one another one is printed there, and none
may begin another. The empty line before the next case or set
belongs to no text. A line that begins with `= ` is a heading, and nothing is read up to the next
case or set. So a line of a text may not begin with `-- `, `= ` or `== `, unless it is escaped.
"""

from __future__ import annotations

import itertools
import re
import shlex
from dataclasses import dataclass, field
from pathlib import Path

PROGRAMS = {"run": "tpch", "make": "make_data", "show": "show_plan"}
ESCAPES = {b"r": b"\r", b"n": b"\n", b"t": b"\t", b"\\": b"\\"}


class PageError(Exception):
    """A page, or a line of it, that isn't of the format."""


@dataclass
class Expected:
    """What a run may print (all of it, its head or its end), or what a file has after it."""

    kind: str
    status: int
    text: bytes
    line: int
    file: str = ""
    place: int = 0  # the line of the file that is the text's first, from 1; 0: the text is all of it


@dataclass
class Case:
    """One run of the program."""

    page: str
    line: int
    title: str
    words: list[str] | None = None
    files: dict[str, bytes] = field(default_factory=dict)
    folders: list[str] = field(default_factory=list)
    numbers: list[int] = field(default_factory=list)
    without: list[str] = field(default_factory=list)
    made: list[str] = field(default_factory=list)
    into: str | None = None
    expected: list[Expected] = field(default_factory=list)
    after: list[Expected] = field(default_factory=list)
    program: str = "tpch"
    is_twice: bool = False
    room: Path | None = None  # the folder that it is run in, where it is not its own


@dataclass
class Block:
    """The lines of a set or a case: its head, and its texts with their headers."""

    line: int
    head: list[tuple[int, str]] = field(default_factory=list)
    texts: list[tuple[int, list[str], list[bytes]]] = field(default_factory=list)


def unescaped(text: bytes) -> bytes:
    """The bytes that an escaped text stands for."""

    def byte(found: re.Match) -> bytes:
        word = found.group(1)
        return bytes([int(word[1:], 16)]) if word[:1] == b"x" else ESCAPES[word]

    if re.sub(rb"\\([rnt\\]|x[0-9a-fA-F]{2})", b"", text).count(b"\\"):
        raise PageError("an unknown escape")
    return re.sub(rb"\\([rnt\\]|x[0-9a-fA-F]{2})", byte, text)


class Repeated(bytes):
    """The bytes of a `repeat` text, with what its lines say: between which numbers each is repeated, and the bytes round the number."""

    lines: list[tuple[int, int, list[bytes]]]


def repeated(lines: list[bytes]) -> Repeated:
    """The bytes of lines `COUNT TEXT` or `FIRST-LAST TEXT`."""
    said = []
    for line in lines:
        found = re.fullmatch(rb"(\d+)(?:-(\d+))? (.*)", line)
        if not found:
            raise PageError("a line of `repeat` begins with a count or two numbers")
        first, last, text = found.groups()
        parts = [text] if last is None else text.split(b"#")
        numbers = (1, int(first)) if last is None else (int(first), int(last))
        said.append((*numbers, [unescaped(part) for part in parts]))
    whole = Repeated(b"".join((b"%d" % n).join(parts) for first, last, parts in said for n in range(first, last + 1)))
    whole.lines = said
    return whole


def chosen(lines: list[bytes]) -> list[bytes]:
    """The texts that lines with choices stand for."""
    parts: list[list[bytes]] = []
    for is_choice, group in itertools.groupby(lines, lambda line: line.startswith(b"| ")):
        if is_choice:
            parts.append([unescaped(line[2:]) + b"\n" for line in group])
        else:
            parts.append([b"".join(line + b"\n" for line in group)])
    return [b"".join(choices) for choices in itertools.product(*parts)]


def text_of(how: list[str], lines: list[bytes]) -> bytes:
    """The bytes of a text whose header ends with these words."""
    if how == ["escaped"]:
        return b"".join(map(unescaped, lines))
    if how == ["repeat"]:
        return repeated(lines)
    if how:
        raise PageError(f"unknown words {' '.join(how)!r}")
    return b"".join(line + b"\n" for line in lines)


def blocks_of(path: Path) -> list[Block]:
    """The blocks of a page. The prose before the first one has no block."""
    blocks: list[Block] = []
    for number, line in enumerate(path.read_bytes().removesuffix(b"\n").split(b"\n"), 1):
        begins = re.match(rb"==? .|files [a-z_0-9]+$", line)
        if begins:
            blocks.append(Block(number, [(number, line.decode())]))
        elif not blocks:
            continue
        elif line.startswith(b"-- "):
            blocks[-1].texts.append((number, line.decode().split()[1:], []))
        elif blocks[-1].texts:
            blocks[-1].texts[-1][2].append(line)
        elif line:
            blocks[-1].head.append((number, line.decode()))
    for block in blocks[:-1]:
        lines = block.texts[-1][2] if block.texts else []
        if lines and not lines[-1]:
            lines.pop()
    return blocks


def put_text(case: Case, line: int, header: list[str], lines: list[bytes]) -> None:
    """Puts a text of a case where its header says."""
    match header:
        case [("out" | "head" | "end") as kind, status, *how] if status.isdigit():
            case.expected.append(Expected(kind, int(status), text_of(how, lines), line))
        case ["one", "of", status, "choice"] if status.isdigit():
            case.expected.extend(Expected("out", int(status), text, line) for text in chosen(lines))
        case ["one", "of", status, *how] if status.isdigit():
            case.expected.append(Expected("out", int(status), text_of(how, lines), line))
        case ["after", file, *how]:
            case.after.append(Expected("after", 0, text_of(how, lines), line, file))
        case ["line", place, file, *how] if place.isdigit():
            case.after.append(Expected("line", 0, text_of(how, lines), line, file, int(place)))
        case ["out" | "head" | "end" | "one" | "line" | "after", *_]:
            raise PageError(f"{header} is no header of a text")
        case [file, *how]:
            case.files[file] = text_of(how, lines)


def case_of(page: str, block: Block, sets: dict[str, dict[str, bytes]]) -> Case:
    """The case that a block tells."""
    case = Case(page, block.line, block.head[0][1][3:])
    for number, line in block.head[1:]:
        word, _, rest = line.partition(" ")
        match word, rest.split():
            case "#", _:
                pass
            case "over", ["number", count]:
                case.numbers.append(int(count))
            case "over", ["folder", folder]:
                case.folders.append(folder)
            case "over", [name] if name in sets:
                case.files.update(sets[name])
            case "without", [name]:
                case.without.append(name)
            case "folder", [name]:
                case.made.append(name)
            case "twice", []:
                case.is_twice = True
            case "into", [name]:
                case.into = name
            case ("run" | "make" | "show"), _:
                case.words, case.program = shlex.split(rest), PROGRAMS[word]
            case _:
                raise PageError(f"{page}:{number}: {line!r} is no line of a case")
    for number, header, lines in block.texts:
        put_text(case, number, header, lines)
    if case.words is None or not case.expected:
        raise PageError("a line `run` or what is printed is lacking")
    return case


def read_page(path: Path, name: str) -> list[Case]:
    """The cases of a page."""
    sets: dict[str, dict[str, bytes]] = {}
    cases = []
    for block in blocks_of(path):
        kind, _, rest = block.head[0][1].partition(" ")
        try:
            if kind == "=":
                pass
            elif kind == "files":
                sets[rest] = {header[0]: text_of(header[1:], lines) for _, header, lines in block.texts}
            else:
                cases.append(case_of(name, block, sets))
        except PageError as error:
            where = "" if str(error).startswith(name) else f"{name}:{block.line}: "
            raise PageError(f"{where}{error}") from error
    if not cases:
        raise PageError(f"{name}: a page without a case")
    return cases
