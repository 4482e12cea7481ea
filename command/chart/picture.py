"""The whole picture: title, panels, rows, axis, and a note where the trace ends before its text."""
import html
import re
import textwrap

from command.chart import diodes
from command.chart.curves import Panel, curves, ground
from command.chart.reasons import reason_strips
from command.chart.rows import axis, line_bands, mark_rows, spin_bands
from command.chart.svg import HEADING, LEFT, STYLE, WIDTH, Plot, path, short, words_at
from command.chart.temperatures import temperatures
from command.history import follow
from command.reasons import after_each
from command.registers import CHANNELS
from command.report import FULL

TOP, GAP = 78, 24
DUTIES_TALL = 104
MOST_GUIDES = 24  # more lines from the status reads up through the panels would hide what they show
NOT_IN_XML = re.compile("[^\x20-\ud7ff\ue000-\ufffd\U00010000-\U0010ffff]")


def duties(plot, top, shown):
    def duty_words(duty):
        return f"{duty} ({100 * duty / FULL:.0f} %)"

    panel = Panel(top + HEADING, DUTIES_TALL, 0, FULL, FULL // 4)
    lines = [(f"duty fan{fan}", f"fan {fan}", [getattr(after, f"duty{fan}") for after in shown], duty_words) for fan in (1, 2)]
    elements = [words_at(LEFT, top, f"Duties in slots of {FULL}", "heading"), *ground("duties", panel), *curves(plot, panel, lines)]
    return elements, [(panel.top, panel.bottom)], panel.bottom


def guides(plot, chips, bodies):
    """Dotted lines at the status reads, through panels and bands but not through the headings."""
    reads = [number for number, chip in enumerate(chips, 1) if any(mark.what == "status" for mark in chip.marks)]
    if len(reads) <= MOST_GUIDES:
        data = (f"M{short(plot.middle(number))} {short(top)}V{short(bottom)}" for number in reads for top, bottom in bodies)
        yield path("guide", "".join(data))


def drawn(case, chips):
    """The elements of the panels and rows, and where they end. A part gives its elements, the places in it that guides go through, its end."""
    plot, elements, bodies, y = Plot(len(chips)), [], [], TOP
    parts = [(temperatures, chips), (duties, case.shown), (reason_strips, after_each(case), chips)]
    parts += [(line_bands, case.shown, chips), *[(diodes.error_bands, chips)] * bool(diodes.broken(chips)), (spin_bands, chips), (mark_rows, chips)]
    for part, *given in parts:
        more, through, bottom = part(plot, y, *given)
        elements, bodies, y = elements + more, bodies + through, bottom + GAP
    elements += guides(plot, chips, bodies)
    more, y = axis(plot, y - GAP + 4, chips)
    return elements + more, y


def offset_words(chips):
    """The offset that stood at the samples of a channel, or the least and the most where there were several."""
    marks = [mark for chip in chips for mark in chip.marks if mark.what == "offset"]
    words = []
    for channel, name in enumerate(CHANNELS):
        stood = {mark.value for mark in marks if mark.part == channel}
        if stood:
            words.append(f"{name} {min(stood):+}" + f" to {max(stood):+}" * (len(stood) > 1))
    return f"offsets: {', '.join(words)}; thin lines: samples" if words else ""


def note_of(case):
    """Why the picture ends where it does, or None where the whole text was run."""
    if not case.ending:
        return None if case.events else "The trace is empty: there is no event to draw."
    last = f"The replay ends after event {len(case.events):,}." if case.events else "There is no event to draw."
    return f"{case.ending[0].upper()}{case.ending[1:]}. {last}"


def picture(title, case):
    title, chips = NOT_IN_XML.sub("\ufffd", title), follow(case)
    elements, bottom = drawn(case, chips) if chips else ([], TOP - 20)
    for line in textwrap.wrap(note_of(case) or "", 120):
        elements.append(words_at(LEFT, bottom + 10, line, "note"))
        bottom += 18
    seconds = f", {chips[-1].clocks / 10:.1f} seconds by the clock events" if chips and chips[-1].clocks else ""
    height = round(bottom + 8)
    return "\n".join(filter(None, (
        f'<svg xmlns="http://www.w3.org/2000/svg" viewBox="0 0 {WIDTH} {height}" width="{WIDTH}" height="{height}" role="img">',
        f"<title>{html.escape(title)}</title><style>{STYLE}{diodes.STYLE * bool(diodes.broken(chips))}</style>",
        f'<rect class="paper" width="{WIDTH}" height="{height}"/>',
        words_at(LEFT, 28, title if len(title) <= 80 else title[:79] + "…", "title"),
        words_at(LEFT, 47, f"{len(chips):,} event{'s' * (len(chips) != 1)}{seconds}", "subtitle", offset_words(chips)),
        *elements,
        "</svg>\n",
    )))
