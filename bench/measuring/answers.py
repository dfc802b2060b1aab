"""Answers: the rows that programs give, and whether two answers are the same."""
import re
from decimal import ROUND_HALF_UP, Decimal
from typing import NamedTuple, Optional

NUMBER = re.compile(r"-?\d+(?:\.(\d+))?(?:[eE][+-]?\d+)?")


class Answer(NamedTuple):
    """What a program gave for a text: processor seconds, seconds by the clock, and the rows as
    lists of texts, or why there are none."""

    processor: float
    clock: float
    rows: Optional[list]
    reason: str = ""


def answers_of(text):
    """The answer of each statement of a printed text: its rows, "done" where it has none, or the
    line of its refusal."""
    found = []
    for line in text.splitlines():
        head = re.match(r"\[\d+\] (?:version \d+ )?(rows|done|.*refused)", line)
        if not head:
            found[-1].append(line.split("|"))
        else:
            found.append([] if head[1] == "rows" else "done" if head[1] == "done" else line)
    return found


def is_same_cell(cell, other, is_binary):
    """Whether another program's cell is this one's: the same text, or a number that is equal at
    the digits printed here. Numbers that were computed in binary may differ by a few units in
    the sixth significant place or the last one printed."""
    if cell == other:
        return True
    digits = NUMBER.fullmatch(cell)
    if not digits or not NUMBER.fullmatch(other):
        return cell == other.removesuffix(" 00:00:00")
    unit = Decimal(1).scaleb(-len(digits[1] or ""))
    if is_binary:
        return abs(Decimal(cell) - Decimal(other)) <= max(2 * unit, abs(Decimal(cell)) / 10**6)
    return Decimal(cell) == Decimal(other).quantize(unit, ROUND_HALF_UP)


def in_order(rows):
    """The rows ordered by the cells that aren't decimals: ORDER BY may leave rows in any order."""
    return sorted(rows, key=lambda row: [it for it in row if "." not in it or not NUMBER.fullmatch(it)])


def is_same(rows, others, is_binary=False):
    """Whether two answers have the same rows."""
    return len(rows) == len(others) and all(
        len(row) == len(other) and all(is_same_cell(*cells, is_binary) for cells in zip(row, other))
        for row, other in zip(in_order(rows), in_order(others))
    )
