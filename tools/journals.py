"""What the bytes of a job's journal mean, worked out apart from the program: by docs/DIALECT.md, "Journals"."""
import datetime
import re

# The fields of the two tables that refreshes change, those of the primary key with a star.
ORDERS = "key* key 1 decimal date 15 15 whole 79".split()
LINEITEMS = "key* key key whole* decimal decimal decimal decimal 1 1 date date date 25 10 44".split()
WHOLE = r"0|-?[1-9][0-9]*"
FORMS = {"key": r"0|[1-9][0-9]*", "whole": WHOLE, "decimal": rf"(?!-0\.00)(-0|{WHOLE})\.[0-9][0-9]", "date": r"\d{4}-\d\d-\d\d"}


def is_field(kind, text):
    """Whether a text is a field's one spelling."""
    name = kind.rstrip("*")
    if text == "\\N" and name == kind:
        return True
    if name not in FORMS:
        return re.fullmatch(rf"[ -{{}}~]{{0,{name}}}", text, re.ASCII) is not None and text != "\\N"
    if not re.fullmatch(FORMS[name], text, re.ASCII):
        return False
    if name != "date":
        return abs(int(text.replace(".", ""))) < 1 << 63
    try:
        datetime.date.fromisoformat(text)
    except ValueError:
        return False
    return True


def lines_of(text):
    """The lines of a text each of which is ended, or None."""
    return text.split("\n")[:-1] if not text or text.endswith("\n") else None


def rows_of(text, form):
    """The rows of lines in their one spelling, or None."""
    lines, rows = lines_of(text), []
    for line in lines or []:
        fields = line.split("|")
        if len(fields) != len(form) + 1 or fields[-1] or not all(map(is_field, form, fields)):
            return None
        rows.append(fields[:-1])
    return None if lines is None else rows


def change_of(payload):
    """The refresh that a payload spells, as the rows of orders and lineitems to insert or the keys to delete; or None."""
    texts = payload.decode("latin-1")
    if texts[:1] == "\2":
        keys = lines_of(texts[1:])
        return None if keys is None or not all(is_field("key*", it) for it in keys) else ("delete", [int(it) for it in keys])
    size = int.from_bytes(payload[1:9], "big")
    if texts[:1] != "\1" or len(texts) < 9 + size:
        return None
    orders, items = rows_of(texts[9 : 9 + size], ORDERS), rows_of(texts[9 + size :], LINEITEMS)
    return None if orders is None or items is None else ("insert", orders, items)


def insert_payload(orders, items):
    """The payload of an insert of these lines."""
    return b"\1" + len(orders).to_bytes(8, "big") + (orders + items).encode("ascii")


def delete_payload(keys):
    """The payload of a delete of these keys."""
    return b"\2" + b"".join(b"%d\n" % key for key in keys)


def entry(payload):
    """An entry with this payload."""
    return b"\1" + len(payload).to_bytes(8, "big") + payload


def read(file):
    """The payloads of a file's entries, and the place of what is no entry, or None. An empty file is none either, and is no fault."""
    found, at = [], 0
    while file[at : at + 1] == b"\1":
        end = at + 9 + int.from_bytes(file[at + 1 : at + 9], "big")
        if len(file) < at + 9 or len(file) < end or change_of(file[at + 9 : end]) is None:
            return found, at
        found.append(file[at + 9 : end])
        at = end
    return found, at if file and at == len(file) else None


def appended(file, payload):
    """The file with one entry more, which is written over what stands behind its entries."""
    at = sum(9 + len(it) for it in read(file)[0])
    new = entry(payload) + b"\0"
    return file[:at] + new + file[at + len(new) :]


class Tables:
    """The keys of orders and of lineitems, each in the order of the rows."""

    def __init__(self, orders, items):
        self.orders, self.items = list(orders), list(items)

    def apply(self, change):
        """Applies a refresh, or returns why it is refused."""
        cause = self.cause(change)
        if cause is None and change[0] == "delete":
            self.orders = [it for it in self.orders if it not in change[1]]
            self.items = [it for it in self.items if it[0] not in change[1]]
        elif cause is None:
            self.orders += [int(it[0]) for it in change[1]]
            self.items += [(int(it[0]), int(it[3])) for it in change[2]]
        return cause

    def cause(self, change):
        """Why a refresh is refused: what is wrong with its first row or key that something is wrong with."""
        if change[0] == "delete":
            for at, key in enumerate(change[1]):
                if key not in self.orders:
                    return f"45 UnknownOrder {key}"
                if key in change[1][:at]:
                    return f"46 KeyTwice {key}"
            return None
        keys, lines = [int(it[0]) for it in change[1]], [(int(it[0]), int(it[3])) for it in change[2]]
        for at, key in enumerate(keys):
            if key in self.orders:
                return f"41 OrderExists {key}"
            if key in keys[:at]:
                return f"42 OrderTwice {key}"
        for at, line in enumerate(lines):
            if line[0] not in keys:
                return f"44 StrayLine {line[0]}"
            if line in self.items:
                return f"48 LineExists {line[0]} {line[1]}"
            if line in lines[:at]:
                return f"43 LineTwice {line[0]} {line[1]}"
        return None
