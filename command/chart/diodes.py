"""Diodes in error: a band for each channel that has one at some event, and the look of its reading meanwhile, which is no measurement."""
from command.chart.rows import BAND, ROW
from command.chart.svg import HEADING, LEFT, events_words, panel_at, path, short, stretches, words_at
from command.chart.temperatures import STYLES
from command.registers import CHANNELS

# of a picture that has such a band
STYLE = ".kept { stroke-width: 2.2; stroke-opacity: 0.4 } .broken { stroke-width: 14; stroke-dasharray: none }\n"
LEGEND = "filled while it lasts: no sample is taken, the reading is kept (pale), the channel asks for full fans (tall among the reasons)"


def broken(chips):
    """The channels whose diode is in error at some event."""
    return [channel for channel in range(len(CHANNELS)) if any(chip.errors[channel] for chip in chips)]


def pieces(plot, middle, channel, chips):
    """A path for each time, with its events for a reader who points at it."""
    for error, start, end in stretches([chip.errors[channel] for chip in chips]):
        if error:
            data = f"M{short(plot.x(start))} {short(middle)}H{short(plot.x(end))}"
            yield path(f"broken {STYLES[channel]}", data, f"{CHANNELS[channel]}, {events_words(start, end)}: diode in error")


def error_bands(plot, top, chips):
    elements = [words_at(LEFT, top, "Diodes in error", "heading", LEGEND)]
    for place, channel in enumerate(broken(chips)):
        row = top + HEADING + ROW * place
        elements += [words_at(LEFT - 8, row + 11, f"{CHANNELS[channel]} diode", "end"), panel_at("row", row, row + BAND)]
        elements += pieces(plot, row + BAND / 2, channel, chips)
    return elements, [(top + HEADING, row + ROW)], row + ROW
