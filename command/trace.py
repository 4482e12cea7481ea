"""Trace text: reading it, its events, and the number of its first wrong or missing line."""
import collections
import itertools
import os
import re
import sys

from command.status import USE, Failure

Event = collections.namedtuple("Event", "kind who arg val")
KINDS = "power write point read sample tach pin clock period alert diode".split()
LONGEST = 65_536  # bytes
WORD = range(-(2**31), 2**31)
DECIMAL = re.compile("0|-?[1-9][0-9]{0,9}")
STANDARD_INPUT = 0

BUS, BYTE, NOTHING = range(128), range(256), range(1)
RANGES = {  # of who, arg and val in an event that can be accepted
    "power": (range(44, 47), range(2), range(2)),
    "write": (BUS, BYTE, BYTE),
    "point": (BUS, BYTE, NOTHING),
    "read": (BUS, NOTHING, NOTHING),
    "sample": (range(3), NOTHING, range(-1024, 1024)),
    "tach": (range(1, 3), NOTHING, BYTE),
    "pin": (NOTHING, NOTHING, range(2)),
    "clock": (NOTHING, NOTHING, NOTHING),
    "period": (range(1, 3), NOTHING, NOTHING),
    "alert": (BUS, NOTHING, NOTHING),
    "diode": (range(1, 3), NOTHING, range(2)),
}


def in_range(event):
    return all(number in numbers for number, numbers in zip(event[1:], RANGES[event.kind]))


def value_of(name, line):
    """What the line says of this name, or None where it is not such a line."""
    before, _, word = line.partition("=")
    if before != name:
        return None
    if name == "kind":
        return word if word in KINDS else None
    return int(word) if DECIMAL.fullmatch(word) and int(word) in WORD else None


def records(record, value, text):
    """The whole records from the start of the text, and the number of its first wrong or missing line, or None."""
    *lines, unended = text.decode("latin-1").split("\n")  # a malformed text may hold any byte
    size = len(record._fields)
    values = [value(name, line) for name, line in zip(itertools.cycle(record._fields), lines)]
    right = (values + [None]).index(None)
    whole = [record(*values[start : start + size]) for start in range(0, right - size + 1, size)]
    return whole, right + 1 if unended or right < len(lines) or right % size else None


def events_of(text):
    return records(Event, value_of, text)


def read_some(place):
    """One byte more than a trace may have is enough: then the program says that it is too long."""
    text = b""
    while len(text) <= LONGEST and (piece := os.read(place, LONGEST + 1 - len(text))):
        text += piece
    return text


def read(name):
    """The text of a file, or of standard input where there is no name or it is `-`."""
    try:
        if name not in (None, "-"):
            with open(name, "rb", buffering=0) as file:
                return read_some(file.fileno())
        if sys.stdin is None:
            raise Failure(USE, "no trace is named, and standard input is closed")
        if name is None and os.isatty(STANDARD_INPUT):
            raise Failure(USE, "name a trace, or give one on standard input")
        return read_some(STANDARD_INPUT)
    except FileNotFoundError:
        raise Failure(USE, f"no such file: {name}") from None
    except IsADirectoryError:
        raise Failure(USE, f"a folder, not a trace: {name or 'standard input'}") from None
    except OSError as error:
        raise Failure(USE, f"the trace cannot be read: {name or 'standard input'}: {error.strerror}") from None
