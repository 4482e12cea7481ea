"""The program's report: what it answers and shows after each event, and its ending."""
import collections
import re

from command.registers import REGISTERS
from command.status import BUILD, Failure
from command.trace import in_range, records, value_of

Shown = collections.namedtuple("Shown", "answer data int therm fault duty1 duty2")
ANSWERS = (*range(10), 13)  # to an event
RANGES = dict(zip(Shown._fields, (ANSWERS, range(256), range(2), range(2), range(2), range(241), range(241))))
TOO_LONG = b"answer=11\n"
FULL = 240  # slots
LINES = {"int": "INT", "therm": "THERM", "fault": "FAN_FAULT"}


def shown_value(name, line):
    value = value_of(name, line)
    return value if value in RANGES[name] else None


def report_of(report):
    """What was shown after each event, and the line that the ending calls wrong, or None."""
    body, ending, told = report.rpartition(b"answer=10\nline=")
    shown, wrong = records(Shown, shown_value, body if ending else report)
    if ending and not re.fullmatch(rb"[1-9][0-9]*\n", told):
        wrong = wrong or body.count(b"\n") + 2
    if wrong:
        raise Failure(BUILD, f"the program's report is malformed at line {wrong}")
    return shown, int(told) if ending else None


def acceptable(event):
    return in_range(event) and (event.kind not in ("write", "point") or event.arg in REGISTERS)


def check_pair(events, wrong, shown, told):
    """That a report can be one of this trace."""
    accepted = (number for number, after in enumerate(shown[: len(events)], 1) if not after.answer)
    impossible = next((number for number in accepted if not acceptable(events[number - 1])), None)
    if len(events) != len(shown):
        found = f"it has {len(shown)} events, the trace {len(events)}"
    elif wrong != told:
        found = f"its wrong line is {told or 'none'}, the trace's {wrong or 'none'}"
    elif impossible:
        found = f"it accepts event {impossible}, whose numbers no keeper accepts"
    else:
        return
    raise Failure(BUILD, f"the program's report is not of this trace: {found}")
