"""Events and answers in the words of the trade."""
from command.history import Mark
from command.registers import CHANNELS, LIMITS, OFFSETS, REGISTERS, degrees, offset_degrees
from command.report import FULL
from command.trace import in_range

NOT_OURS = 2  # the reply to a bus event or an alert for another address
REPLIES = {  # to an event; 10 and 11 are given to a text, 12 to a row of alert entries
    0: "done",
    1: "no power yet",
    2: "not our address",
    3: "no such channel, fan or diode",
    4: "no such register",
    5: "read-only register",
    6: "out of range",
    7: "no such range code",
    8: "odd local sample",
    9: "monitoring is off",
    13: "diode in error",
}
PARTS = {"sample": "channel", "diode": "diode"}  # what there is not, of an event that gets 3; else a fan


def reply_words(event, shown):
    return f"no such {PARTS.get(event.kind, 'fan')}" if shown.answer == 3 else REPLIES[shown.answer]


def percent(slots):
    return (100 * slots + FULL // 2) // FULL


def celsius(number):
    return f"{number:g} °C"


def register_words(address):
    return f"0x{address:02X} {REGISTERS[address].name if address in REGISTERS else '(no register)'}"


def degree_words(address, byte):
    """What a byte is in degrees, in a limit or an offset."""
    if address in OFFSETS:
        offset = offset_degrees(byte)
        return f", {'+' * (offset > 0)}{celsius(offset)}"
    return f", {celsius(degrees(byte))}" if address in LIMITS else ""


def power(event, shown, chip):
    broken = [name for name, error in zip(CHANNELS[1:], event[2:]) if error]
    return f"power at {event.who}" + (", diode error " if broken else "") + ", ".join(broken)


def write(event, shown, chip):
    if shown.answer == NOT_OURS:
        return f"write to {event.who}: {register_words(event.arg)} = 0x{event.val:02X}"
    return f"write {register_words(event.arg)} = 0x{event.val:02X}{degree_words(event.arg, event.val)}"


def point(event, shown, chip):
    return f"point to {event.who}: {register_words(event.arg)}" if shown.answer == NOT_OURS else f"point {register_words(event.arg)}"


def read(event, shown, chip):
    if shown.answer == NOT_OURS:
        return f"read from {event.who}"
    return "read" if shown.answer else f"read {register_words(chip.pointer)} -> 0x{shown.data:02X}"


def sample(event, shown, chip):
    reading = event.val if shown.answer else chip.readings[event.who]
    reads = f", reads {celsius(reading / 8)}" if reading != event.val else ""
    return f"sample {CHANNELS[event.who]} {celsius(event.val / 8)}{reads}"


def alert(event, shown, chip):
    if shown.answer == NOT_OURS:
        return f"alert for {event.who}"
    if shown.answer:
        return "alert"
    return "alert, INT let go" if Mark("alert", value=True) in chip.marks else "alert, INT not asserted"


def diode(event, shown, chip):
    words = "error found" if event.val else "mended"
    if Mark("diode", event.who, False) in chip.marks:
        words = f"{'in error' if event.val else 'sound'} as it was"
    return f"diode {CHANNELS[event.who]}, {words}"


WORDS = {
    "power": power,
    "write": write,
    "point": point,
    "read": read,
    "sample": sample,
    "tach": lambda event, shown, chip: f"tach fan {event.who} count {event.val}",
    "pin": lambda event, shown, chip: f"pin {'high' if event.val else 'low'}",
    "clock": lambda event, shown, chip: "clock 0.1 s",
    "period": lambda event, shown, chip: f"period fan {event.who}",
    "alert": alert,
    "diode": diode,
}


def event_words(event, shown, chip, room=1000):
    """The event in words, by the chip after it; where they need more room, the numbers of the trace."""
    words = WORDS[event.kind](event, shown, chip) if in_range(event) else "{} who={} arg={} val={}".format(*event)
    return words if len(words) <= room else "{} {} {} {}".format(*event)
