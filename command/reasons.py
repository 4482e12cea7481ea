"""The reasons for the duties and the ages of the fans, as the program `why` gives them after an event; nothing of them is worked out here."""
import collections
import itertools

from command.case import NO_POWER, powered, refusal_of
from command.history import follow
from command.program import reasons_of
from command.registers import CHANNELS
from command.report import FULL
from command.status import BUILD, Failure
from command.trace import Event, value_of

CHANNEL, CLOCKS, SLOTS = (tuple(map(str, numbers)) for numbers in (range(3), range(1, 81), range(1, FULL + 1)))
FORMS = {  # the first word, and which words stand behind it
    "disabled": (),
    "pin": (),
    "therm": (CHANNEL,),
    "zero": (),
    "spin": (CLOCKS,),
    "ramp": (SLOTS, ("up", "down"), SLOTS),
    "manual": (),
    "demand": (CHANNEL,),
}
STANDS, RUNS_FULL, OF_CHANNEL = ("disabled", "zero"), ("pin", "therm", "spin"), ("therm", "demand")
FANS = (1, 2)
AGES = range(2**16)  # clock events


class Reason(collections.namedtuple("Reason", "what more age")):
    """The program's words: the first, and those behind it; and the fan's age, in clock events."""

    def words(self):
        return " ".join((self.what, *self.more))

    def channel(self):
        return int(self.more[0]) if self.what in OF_CHANNEL else None

    def ramp(self):
        """Slots left, the way, and the target."""
        left, way, target = self.more
        return int(left), way, int(target)

    def duty(self):
        """The duty in force, where the words alone tell it."""
        if self.what == "ramp":
            left, way, target = self.ramp()
            return target - left if way == "up" else target + left
        return 0 if self.what in STANDS else FULL if self.what in RUNS_FULL else None

    def by_error(self, chip):
        """Whether it is the demand of a channel whose diode is in error."""
        return self.what == "demand" and chip.errors[self.channel()]

    def first(self, chip):
        """The first word; `diode` in place of `demand` where an error is all the cause."""
        return "diode" if self.by_error(chip) else self.what

    def named(self, chip):
        """With the channel's name in place of its number."""
        return " ".join((self.first(chip), CHANNELS[self.channel()])) if self.what in OF_CHANNEL else self.words()


def reason_of(fan, line, age_line):
    """What two lines say of a fan, or None where they are no such lines."""
    name, _, words = line.partition("=")
    what, *more = words.split(" ")
    forms, age = FORMS.get(what), value_of(f"age{fan}", age_line)
    right = name == f"reason{fan}" and forms is not None and len(forms) == len(more) and all(map(tuple.__contains__, forms, more))
    return Reason(what, tuple(more), age) if right and age in AGES else None


def told(printed, refusal, shown, chip):
    """The reasons of both fans in what was printed, or None where a refusal is due, which is then all of it. They are held to the duties
    that are shown, and ages to what is known of the chip, since the words for them are from there."""
    if refusal:
        found, right = None, printed == b"answer=%d\n" % refusal
    else:
        *lines, unended = printed.decode("latin-1").split("\n")
        found = [reason_of(fan, *pair) for fan, pair in zip(FANS, zip(lines, lines[len(FANS) :]))]
        right = len(lines) == 2 * len(FANS) and not unended and None not in found
        right = right and all(reason.duty() in (None, duty) for reason, duty in zip(found, shown[-2:]))
        right = right and all(reason.age == chip.age(fan - 1) for fan, reason in zip(FANS, found))
    if not right:
        raise Failure(BUILD, f"the program's reasons are not of this trace: it prints {printed[:80]!r}")
    return found


def cuts(case):
    """The trace's text up to the end of each event."""
    text, size = memoryview(case.text), len(Event._fields)
    ends = itertools.accumulate(len(line) + 1 for line in case.text.split(b"\n"))
    return [text[:end] for end in itertools.islice(ends, size - 1, size * len(case.events), size)]


def after_each(case):
    """The reasons of both fans after each event, None before the first accepted power."""
    rows = zip(reasons_of(cuts(case)), powered(case), case.shown, follow(case))
    return [told(printed, 0 if power else NO_POWER, shown, chip) for printed, power, shown, chip in rows]


def after_last(case):
    """What the program prints of the whole text, and the reasons of both fans in it, None where it is refused."""
    (printed,) = reasons_of([case.text])
    last = (case.shown[-1], follow(case)[-1]) if case.shown else (None, None)
    return printed, told(printed, refusal_of(case), *last)
