"""What is known of the chip after each event, from the trace and the report: it says what was accepted, data, pins and duties."""
import collections
import dataclasses

from command.registers import (CHARACTERISTICS, CONFIG2, HIGH, LOW, OFFSETS, REGISTERS, RESET_BIT, SPIN_UP, STATUS, TACH_LIMIT, THERM,
                               channel_enabled, degrees, offset_degrees, tach_enabled)

# what: refused, power, reset, status (part: register, value: byte), high, low (channel, limit), over (fan, count), failed (fan, count),
# offset (channel, degrees: at a sample, other than 0), alert (value: whether it lets INT go), diode (channel, whether that is news)
Mark = collections.namedtuple("Mark", "what part value", defaults=(None, None))
# what set a fan's stamp: a start, where its duty left 0, or power or reset; whether it turned before that, and after; the clocks up to there
Since = collections.namedtuple("Since", "what turned turns clocks")
AFTER_POWER = {address: register.reset for address, register in REGISTERS.items()}
RELEASE = 5  # degrees under its limit, where a THERM latch lets go
LEAST, MOST = -1024, (1022, 1023, 1023)  # readings of the channels, in eighths; the local one stays even


@dataclasses.dataclass(frozen=True)
class Chip:
    """Readings are in eighths, None before the first sample; samples those they were made of, None where no offset stood at them;
    errors are the channels whose diode is in error; asserted is INT; spins are the clock events that remain of the spin-ups; clocks are
    all that were accepted; since is what last set the stamp of each fan, None before power."""

    registers: dict = dataclasses.field(default_factory=lambda: AFTER_POWER)
    pointer: int = 0
    readings: tuple = (None, None, None)
    samples: tuple = (None, None, None)
    latches: tuple = (False, False, False)
    errors: tuple = (False, False, False)
    pin_low: bool = False
    asserted: bool = False
    duties: tuple = (0, 0)
    spins: tuple = (0, 0)
    clocks: int = 0
    since: tuple = (None, None)
    marks: tuple = ()

    def limit(self, limits, channel):
        return degrees(self.registers[limits[channel]])

    def offset(self, channel):
        return offset_degrees(self.registers[OFFSETS[channel]])

    def age(self, fan):
        """The clock events since the fan's stamp was set; a trace has too few of them to wrap."""
        return self.clocks - self.since[fan].clocks


def put(values, place, value):
    return (*values[:place], value, *values[place + 1 :])


def start(chip, event):
    return Chip(errors=(False, event.arg == 1, event.val == 1), clocks=chip.clocks, marks=(Mark("power"),))


def write(chip, event):
    if event.arg == CONFIG2 and event.val & RESET_BIT:
        return Chip(pointer=CONFIG2, errors=chip.errors, pin_low=chip.pin_low, clocks=chip.clocks, marks=(Mark("reset"),))
    mask = REGISTERS[event.arg].mask
    byte = event.val & mask | chip.registers[event.arg] & ~mask
    return dataclasses.replace(chip, registers={**chip.registers, event.arg: byte}, pointer=event.arg)


def reading_of(channel, eighths, offset):
    """What a sample makes of a reading: the channel's offset is added, and the sum is held at both ends."""
    return max(LEAST, min(eighths + 8 * offset, MOST[channel]))


def sample(chip, event):
    channel, offset = event.who, chip.offset(event.who)
    reading = reading_of(channel, event.val, offset)
    high, low, therm = (chip.limit(limits, channel) for limits in (HIGH, LOW, THERM))
    latch = reading > 8 * therm or (chip.latches[channel] and reading >= 8 * (therm - RELEASE))
    marks = [Mark("high", channel, high)] * (reading > 8 * high) + [Mark("low", channel, low)] * (reading < 8 * low)
    marks *= channel_enabled(channel, chip.registers[CONFIG2])
    return dataclasses.replace(
        chip,
        readings=put(chip.readings, channel, reading),
        samples=put(chip.samples, channel, event.val if offset else None),
        latches=put(chip.latches, channel, latch),
        marks=(*marks, Mark("offset", channel, offset)) if offset else tuple(marks),
    )


def tach(chip, event):
    """A count is judged by the duty and the spin-up as they stood before it."""
    fan = event.who - 1
    if event.val <= chip.registers[TACH_LIMIT[fan]]:
        return chip
    judged = tach_enabled(fan, chip.registers[CONFIG2]) and chip.duties[fan] and not chip.spins[fan]
    return dataclasses.replace(chip, marks=(Mark("failed" if judged else "over", fan, event.val),))


def diode(chip, event):
    """Reading and latch of the channel stay as they are."""
    error = event.val == 1
    mark = Mark("diode", event.who, error != chip.errors[event.who])
    return dataclasses.replace(chip, errors=put(chip.errors, event.who, error), marks=(mark,))


ACCEPTED = {
    "power": start,
    "write": write,
    "point": lambda chip, event: dataclasses.replace(chip, pointer=event.arg),
    "read": lambda chip, event: chip,
    "sample": sample,
    "tach": tach,
    "pin": lambda chip, event: dataclasses.replace(chip, pin_low=event.val == 0),
    "clock": lambda chip, event: dataclasses.replace(chip, clocks=chip.clocks + 1),
    "period": lambda chip, event: chip,
    "alert": lambda chip, event: dataclasses.replace(chip, marks=(Mark("alert", value=chip.asserted),)),
    "diode": diode,
}


def spin_after(chip, event, fan, duty):
    """A spin-up begins where the duty leaves 0 and at a failed count; a clock event counts it down, and duty 0 ends it."""
    if duty == 0:
        return 0
    if chip.duties[fan] == 0 or Mark("failed", fan, event.val) in chip.marks:
        return SPIN_UP[chip.registers[CHARACTERISTICS[fan]] & 7]
    return max(0, chip.spins[fan] - (event.kind == "clock"))


def since_after(chip, moved, fan, duty):
    """What last set the fan's stamp: a power or a reset, else a start. Before a power every fan counts as one that stands."""
    turned = chip.duties[fan] > 0
    what = next((mark.what for mark in moved.marks if mark.what in ("power", "reset")), "start" if duty and not turned else None)
    return Since(what, turned and what != "power", duty > 0, moved.clocks) if what else chip.since[fan]


def after(chip, event, shown):
    chip = dataclasses.replace(chip, marks=())
    if shown.answer:
        return dataclasses.replace(chip, marks=(Mark("refused", value=shown.answer),))
    moved = ACCEPTED[event.kind](chip, event)
    marks = (Mark("status", chip.pointer, shown.data),) if event.kind == "read" and chip.pointer in STATUS else moved.marks
    duties = (shown.duty1, shown.duty2)
    spins = tuple(spin_after(moved, event, fan, duty) for fan, duty in enumerate(duties))
    since = tuple(since_after(chip, moved, fan, duty) for fan, duty in enumerate(duties))
    return dataclasses.replace(moved, asserted=bool(shown.int), duties=duties, spins=spins, since=since, marks=marks)


def follow(case):
    """The chip after each event of a case."""
    chip, chips = Chip(), []
    for event, shown in zip(case.events, case.shown):
        chip = after(chip, event, shown)
        chips.append(chip)
    return chips
