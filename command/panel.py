"""The command `panel`: what the program prints of temperatures and fan speeds, laid out for the wheelhouse; no figure is worked out here."""
import re

from command.case import refusal_of
from command.history import follow
from command.program import panel_of
from command.reasons import FANS
from command.registers import CHANNELS
from command.status import BUILD, Failure

TENTHS, SPEED = "(0|-?[1-9][0-9]{0,3})", "(none|stalled|[1-9][0-9]{2,5})"
FORM = f"local={TENTHS}\nremote1={TENTHS}\nremote2={TENTHS}\nfan1={SPEED}\nfan2={SPEED}\n"
SPEEDS = range(675_000 // (254 * 8), 675_000 + 1)  # revolutions a minute: from the largest count and range divisor to the least
WORDS = {"none": "not measured", "stalled": "stalled"}
NAME, WHOLE = 8, 6  # columns of a name, and of a whole number: up to 675000
NO_PANEL = "no panel to show: the keeper has no power yet"


def output(case, options):
    printed, refusal = panel_of(case.text), refusal_of(case)
    if refusal:
        check(printed == b"answer=%d\n" % refusal, printed)
        return printed if case.ending else printed + f"{NO_PANEL}\n".encode()
    return "".join(f"{row}\n" for row in rows(printed, follow(case)[-1])).encode()


def check(right, printed):
    if not right:
        raise Failure(BUILD, f"the program's panel is not of this trace: it prints {printed[:80]!r}")


def rows(printed, chip):
    """Temperatures are held to the readings that are known of the chip, since a note is from there."""
    told = re.fullmatch(FORM, printed.decode("latin-1"))
    check(told, printed)
    tenths, speeds = [int(word) for word in told.groups()[: len(CHANNELS)]], told.groups()[len(CHANNELS) :]
    check(tenths == [10 * (reading or 0) // 8 for reading in chip.readings], printed)
    check(all(speed in WORDS or int(speed) in SPEEDS for speed in speeds), printed)
    yield from (temperature_row(channel, number, chip) for channel, number in enumerate(tenths))
    yield from (fan_row(fan, speed) for fan, speed in zip(FANS, speeds))


def temperature_row(channel, tenths, chip):
    """The sign by itself, since the whole degrees of -0.2 have none."""
    whole, rest = divmod(abs(tenths), 10)
    degrees = f"{'-' if tenths < 0 else ''}{whole}.{rest}"
    return f"{CHANNELS[channel]:{NAME}}{degrees:>{WHOLE + 2}} °C{note(channel, chip)}"


def note(channel, chip):
    """Why the number may not be how warm it is."""
    sampled = chip.readings[channel] is not None
    if chip.errors[channel]:
        return "   diode error: " + ("last reading" if sampled else "no sample yet")
    return "" if sampled else "   no sample yet"


def fan_row(fan, speed):
    name = f"fan {fan}"
    return f"{name:{NAME + 2}}{WORDS[speed]}" if speed in WORDS else f"{name:{NAME}}{speed:>{WHOLE}} rpm"
