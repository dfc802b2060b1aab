"""The texts that are asked: the 22 queries with two sets of values, and the statements of
bench/slow."""
import glob
import os
import re
from typing import NamedTuple

from .child import TOP

# By a query's number what stands in its text of examples/queries, and other values of the
# benchmark's ranges in its place.
OTHER_VALUES = {
    1: {"'90'": "'60'"},
    2: {"= 15": "= 37", "%BRASS": "%TIN", "EUROPE": "ASIA"},
    3: {"BUILDING": "MACHINERY", "1995-03-15": "1995-03-22"},
    4: {"1993-07-01": "1996-10-01"},
    5: {"ASIA": "AFRICA", "1994-01-01": "1996-01-01"},
    6: {"1994-01-01": "1997-01-01", "0.06": "0.03", "< 24": "< 25"},
    7: {"FRANCE": "CHINA", "GERMANY": "PERU"},
    8: {"BRAZIL": "KENYA", "AMERICA": "AFRICA", "ECONOMY ANODIZED STEEL": "SMALL PLATED COPPER"},
    9: {"green": "rosy"},
    10: {"1993-10-01": "1994-06-01"},
    11: {"GERMANY": "PERU"},
    12: {"'MAIL'": "'RAIL'", "'SHIP'": "'TRUCK'", "1994-01-01": "1997-01-01"},
    13: {"special": "pending", "requests": "accounts"},
    14: {"1995-09-01": "1997-03-01"},
    15: {"1996-01-01": "1993-05-01"},
    16: {
        "Brand#45": "Brand#21",
        "MEDIUM POLISHED": "ECONOMY BRUSHED",
        "49, 14, 23, 45, 19, 3, 36, 9": "1, 47, 12, 8, 29, 31, 5, 50",
    },
    17: {"Brand#23": "Brand#54", "MED BOX": "LG CAN"},
    18: {"> 300": "> 313"},
    19: {
        ">= 10 ": ">= 17 ",
        "<= 10 +": "<= 17 +",
        ">= 20 ": ">= 26 ",
        "<= 20 +": "<= 26 +",
        ">= 1 ": ">= 4 ",
        "<= 1 +": "<= 4 +",
        "Brand#12": "Brand#31",
        "Brand#23": "Brand#14",
        "Brand#34": "Brand#52",
    },
    20: {"forest": "azure", "1994-01-01": "1996-01-01", "CANADA": "INDIA"},
    21: {"SAUDI ARABIA": "KENYA"},
    22: {"'13', '31', '23', '29', '30', '18', '17'": "'10', '21', '34', '26', '15', '12', '28'"},
}


class Text(NamedTuple):
    """A text that is asked: its name, the query's number (0 for others), and its statements."""

    name: str
    number: int
    text: str


def replaced(text, values):
    """The text with each of the values in place of what stands there; all at once."""
    return re.sub("|".join(map(re.escape, values)), lambda found: values[found[0]], text)


def read(path):
    with open(path, encoding="ascii") as file:
        return file.read()


def query_text(number):
    return read(f"{TOP}/examples/queries/query_{number:02}.sql")


def query_texts(scale, numbers=None, texts_of=query_text):
    """The texts of these queries (all where none are given), each with the values of its text
    and with others. The fraction in query 11 is 0.0001 through the scale factor, as the
    benchmark has it."""
    fraction = f"{0.0001 / scale:.10f}".rstrip("0")
    for number in numbers or range(1, 23):
        text = texts_of(number)
        if text is None:
            continue
        text = text.replace("0.0001", fraction) if number == 11 else text
        yield Text(f"{number:02}", number, text)
        yield Text(f"{number:02} b", number, replaced(text, OTHER_VALUES[number]))


def slow_texts():
    """The statements of bench/slow, by name."""
    for path in sorted(glob.glob(f"{TOP}/bench/slow/*.sql")):
        yield Text(os.path.basename(path).removesuffix(".sql"), 0, read(path))


def statements(text):
    """The statements of a text, without comments and semicolons."""
    return [it.strip() for it in re.sub(r"--.*", "", text).split(";") if it.strip()]
