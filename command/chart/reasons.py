"""The reasons under the duties: a strip for each fan in pieces, as tall as the fan is fast, and their words where they have room."""
from command.chart.rows import BAND
from command.chart.svg import HEADING, LEFT, SIGN, events_words, panel_at, path, short, stretches, words_at
from command.chart.temperatures import STYLES
from command.reasons import FANS
from command.registers import CHANNELS

WORDS = 16  # from one strip to the next, for the words of the first
FOOT, HALF = BAND - 1.5, BAND * 3 / 4  # the middle of a line of 3 at the foot, and of what is half as tall as the strip
MIDDLES = {"disabled": FOOT, "zero": FOOT, "demand": HALF}  # of the others it is that of the strip
LEGEND = {  # of the demand of a channel whose diode is in error the row of that diode tells
    "therm": "dark: THERM",
    "pin": "ochre: pin low",
    "spin": "light: spin-up",
    "ramp": "wedge: ramp",
    "demand": "half: demand, as its channel's line",
    "manual": "line: manual",
    "zero": "foot: target 0",
    "disabled": "dots: disabled",
}


def look(reason, chip):
    """What a piece of the strip stands for, as it is drawn; None before power."""
    return reason and (reason.first(chip), reason.channel(), reason.ramp()[1] if reason.what == "ramp" else None)


def drawn(piece, left, right, top):
    """The style of a piece, and its data."""
    what, channel, way = piece
    if what == "ramp":
        tip, foot = (right, left) if way == "up" else (left, right)
        return f"because ramp {way}", f"M{short(foot)} {short(top + BAND)}H{short(tip)}V{short(top)}Z"
    style = f"{what} {STYLES[channel]}" if what in ("demand", "diode") else what
    return f"because {style}", f"M{short(left)} {short(top + MIDDLES.get(what, BAND / 2))}H{short(right)}"


def words_of(piece, room):
    """The longest words for a piece that have room under it."""
    what, channel, way = piece
    more = way if channel is None else CHANNELS[channel]
    return next((words for words in (f"{what} {more or ''}".strip(), what) if len(words) * SIGN <= room), "")


def words_after(reason, chip):
    return reason.named(chip) + " in error" * reason.by_error(chip)


def hint(fan, start, end, reasons, chips):
    """What a reader who points at a piece is told: its events, and the words at the first and the last of them."""
    first, last = (words_after(reasons[place], chips[place]) for place in (start, end - 1))
    return f"fan {fan}, {events_words(start, end)}: {first}" + f" to {last}" * (first != last)


def strip(plot, top, fan, reasons, chips):
    yield words_at(LEFT - 8, top + 11, f"fan {fan} reason", "end")
    yield panel_at("row", top, top + BAND)
    for piece, start, end in stretches(list(map(look, reasons, chips))):
        if piece:
            left, right = plot.x(start), plot.x(end)
            yield path(*drawn(piece, left, right, top), hint(fan, start, end, reasons, chips))
            if words := words_of(piece, right - left):
                yield words_at((left + right) / 2, top + BAND + 10, words, "piece")


def reason_strips(plot, top, pairs, chips):
    """The elements, the strips, and where they end; pairs are the reasons of both fans after each event, chips what is known then."""
    fans = list(zip(*(pair or (None, None) for pair in pairs)))
    seen = {reason.first(chip) for reasons in fans for reason, chip in zip(reasons, chips) if reason}
    legend = "; ".join(words for what, words in LEGEND.items() if what in seen)
    elements, bodies = [words_at(LEFT, top, "Reasons", "heading", legend)], []
    for place, (fan, reasons) in enumerate(zip(FANS, fans)):
        start = top + HEADING + (BAND + WORDS) * place
        elements, bodies = elements + list(strip(plot, start, fan, reasons, chips)), bodies + [(start, start + BAND)]
    return elements, bodies, start + BAND + WORDS
