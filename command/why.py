"""The command `why`: the reasons and ages as the program prints them, and of each fan what can be read out."""
from command.history import RELEASE, follow
from command.reasons import FANS, after_last
from command.registers import CHANNELS, CONFIG1, CONFIG2, THERM
from command.report import FULL
from command.since import since_words
from command.status import BUILD, Failure
from command.words import celsius, percent, register_words

AUTOMATIC = 0x80  # of Configuration 1
NO_REASON = "no reason to give: the keeper has no power yet, and both fans stand still"


def output(case, options):
    printed, reasons = after_last(case)
    if case.ending:
        return printed
    return printed + "".join(f"{line}\n" for line in (sentences(case, reasons) if reasons else [NO_REASON])).encode()


def sentences(case, reasons):
    """Why a fan runs as it does, and since when."""
    chip = follow(case)[-1]
    return [f"fan {fan} {SENTENCES[reason.what](fan, reason, chip)}. {since_words(fan, reason, chip)}" for fan, reason in zip(FANS, reasons)]


def slots_words(slots):
    return f"{percent(slots) or 'less than 1'}% ({slots} slot{'s' * (slots != 1)})"


def runs(fan, chip):
    """How fast it runs; of 240 slots, said once."""
    duty = chip.duties[fan - 1]
    return "runs at full speed" if duty == FULL else f"runs at {percent(duty)}% ({duty} of {FULL} slots)"


def reads(chip, channel):
    if chip.readings[channel] is None:
        raise Failure(BUILD, f"the program's reasons are not of this trace: {CHANNELS[channel]} has no sample")
    return celsius(chip.readings[channel] / 8)


def disabled(fan, reason, chip):
    return f"stands still because its output is disabled: bit {fan - 1} of {register_words(CONFIG2)} is 0"


def therm(fan, reason, chip):
    channel = reason.channel()
    ends = celsius(chip.limit(THERM, channel) - RELEASE)
    latch = f"the THERM latch of channel {CHANNELS[channel]} is on"
    then, when = ("last read", ", once its diode is mended") if chip.errors[channel] else ("reads", "")
    return f"runs at full speed because {latch}: it {then} {reads(chip, channel)}, and only a reading below {ends} lets go{when}"


def zero(fan, reason, chip):
    automatic = chip.registers[CONFIG1] & AUTOMATIC
    return "stands still because its target is 0: " + ("no channel asks anything of it" if automatic else "it is set to that by hand")


def spin(fan, reason, chip):
    return f"runs at full speed: it is spinning up, {int(reason.more[0]) / 10:.1f} seconds are left"


def ramp(fan, reason, chip):
    left, way, target = reason.ramp()
    return f"{runs(fan, chip)} and is on its way {way} to {slots_words(target)}, with {slots_words(left)} to go"


def demand(fan, reason, chip):
    channel = reason.channel()
    if reason.by_error(chip):
        return f"{runs(fan, chip)} because channel {CHANNELS[channel]}, whose diode is in error, asks for that whatever it reads"
    return f"{runs(fan, chip)} because channel {CHANNELS[channel]}, which reads {reads(chip, channel)}, asks for that"


SENTENCES = {
    "disabled": disabled,
    "pin": lambda fan, reason, chip: "runs at full speed because the THERM pin is pulled low from outside",
    "therm": therm,
    "zero": zero,
    "spin": spin,
    "ramp": ramp,
    "manual": lambda fan, reason, chip: f"{runs(fan, chip)} because it is set to that by hand",
    "demand": demand,
}
