"""A trace with its report, as every command gets it."""
import collections
import itertools
import operator

from command.lines import fault_at
from command.report import TOO_LONG, check_pair, report_of
from command.trace import LONGEST, events_of

# name: of the trace, None for standard input; text: its bytes; shown: what the report says after each event; ending: why it ends
# too early, or None
Case = collections.namedtuple("Case", "name text events report shown ending")
NO_POWER, WRONG_LINE, LONG = 1, 10, 11  # refusals of what is told after an event


def case_of(name, text, report):
    if report == TOO_LONG:
        return Case(name, text, [], report, [], f"the trace is longer than {LONGEST:,} bytes, and nothing of it was run")
    (events, wrong), (shown, told) = events_of(text), report_of(report)
    check_pair(events, wrong, shown, told)
    return Case(name, text, events, report, shown, f"line {wrong}: {fault_at(text, wrong)}" if wrong else None)


def powered(case):
    """Whether a power was accepted, up to each event."""
    powers = (event.kind == "power" and not shown.answer for event, shown in zip(case.events, case.shown))
    return list(itertools.accumulate(powers, operator.or_))


def refusal_of(case):
    """The number with which a program refuses to tell something after the last event, or 0."""
    if case.ending:
        return LONG if case.report == TOO_LONG else WRONG_LINE
    return 0 if any(powered(case)) else NO_POWER
