"""The panel of the temperatures: readings, samples with an offset, THERM limits and their latches, high and low limits that set a bit.
While a diode is in error its channel's reading is a line of its own: it is kept, and no measurement."""
from command.chart.curves import Panel, curves, ground, rounded_out
from command.chart.svg import HEADING, LEFT, path, short, stretches, words_at
from command.history import RELEASE
from command.registers import CHANNELS, HIGH, LOW, THERM

TALL = 236
LIMITS = {"high": HIGH, "low": LOW}
STYLES = [name.replace(" ", "") for name in CHANNELS]
HINTS = {"kept": "the last reading before its diode was in error"}  # for a reader who points at such a line


def degree_words(value):
    return f"{value:g}"


def line(style, name, values):
    return style, name, values, degree_words


def in_degrees(eighths):
    return [None if value is None else value / 8 for value in eighths]


def readings_of(chips, channel):
    return in_degrees(chip.readings[channel] for chip in chips)


def while_error(chips, channel, values, error):
    """Values only where the channel's diode is in error, or only where it is not."""
    return [value if chip.errors[channel] == error else None for value, chip in zip(values, chips)]


def limits_of(chips, limits, channel):
    """A limit while its channel has a reading: before that nothing is held to it."""
    return [None if chip.readings[channel] is None else chip.limit(limits, channel) for chip in chips]


def lines_of(chips):
    """The lines of the channels that have a reading; high and low limits only where they set a bit, samples only where an offset stood."""
    marks = {(mark.what, mark.part) for chip in chips for mark in chip.marks}
    for channel, (name, style) in enumerate(zip(CHANNELS, STYLES)):
        readings = readings_of(chips, channel)
        if set(readings) != {None}:
            yield line(f"limit {style}", f"{name} THERM limit", limits_of(chips, THERM, channel))
            for what, limits in LIMITS.items():
                if (what, channel) in marks:
                    yield line(f"{what} {style}", f"{name} {what} limit", limits_of(chips, limits, channel))
            if ("offset", channel) in marks:
                samples = in_degrees(chip.samples[channel] for chip in chips)
                yield line(f"sample {style}", f"{name} sample", while_error(chips, channel, samples, False))
            yield line(f"reading {style}", name, while_error(chips, channel, readings, False))
            kept = while_error(chips, channel, readings, True)
            if set(kept) != {None}:
                yield line(f"kept {style}", f"{name}, kept", kept)


def holds(plot, panel, chips, channel):
    """While a latch is on, the degrees from its limit down to where it lets go."""
    held = [chip.limit(THERM, channel) if chip.latches[channel] else None for chip in chips]
    for limit, start, end in stretches(held):
        if limit is not None:
            top, bottom = (short(panel.y(max(value, panel.low))) for value in (limit, limit - RELEASE))
            left, right = short(plot.x(start)), short(plot.x(end))
            yield f"M{left} {top}H{right}V{bottom}H{left}Z"


def triangles(plot, panel, chips, what, channel):
    """At each sample that set the high or low bit: a triangle that points away from the limit, beside the reading."""
    turn = -1 if what == "high" else 1
    for number, chip in enumerate(chips, 1):
        for mark in chip.marks:
            if (mark.what, mark.part) == (what, channel):
                x, y = plot.middle(number), panel.y(chip.readings[channel] / 8)
                yield f"M{short(x)} {short(y + 9 * turn)}l3 {-6 * turn}h-6Z"


def legend(lines, chips):
    styles = {style.split()[0] for style, _, _, _ in lines}
    marks = {mark.what for chip in chips for mark in chip.marks}
    if "limit" in styles:
        yield "dashes: THERM limit"
    if any(any(chip.latches) for chip in chips):
        yield f"shaded: latch on, with the {RELEASE} degrees it holds"
    if marks & {"high", "low"}:
        signs = " and ".join(f"{sign} {what}" for what, sign in (("high", "▲"), ("low", "▼")) if what in marks)
        yield f"dots: limit that set a bit, {signs}"
    if not lines:
        yield "no accepted sample"


def temperatures(plot, top, chips):
    """The elements, the panel's place, and where they end."""
    lines = list(lines_of(chips))
    seen = {value for _, _, values, _ in lines for value in values} - {None}
    # a quarter of a degree more on each side keeps the lines off the edges
    panel = Panel(top + HEADING, TALL, *rounded_out(min(seen, default=1) - 0.25, max(seen, default=99) + 0.25, 8))
    elements = [words_at(LEFT, top, "Temperatures in °C", "heading", "; ".join(legend(lines, chips))), *ground("temperatures", panel)]
    elements += [path(f"hold {style}", "".join(holds(plot, panel, chips, channel))) for channel, style in enumerate(STYLES)]
    elements += curves(plot, panel, lines, HINTS)
    for channel, style in enumerate(STYLES):
        elements += [path(f"set {style} {what}bit", "".join(triangles(plot, panel, chips, what, channel))) for what in LIMITS]
    return elements, [(panel.top, panel.bottom)], panel.bottom
