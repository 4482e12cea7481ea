"""The rows under the panels: lines and spin-ups as bands, events as marks with a word under them, and the axis."""
import collections

from command.chart.curves import apart, rounded_out
from command.chart.svg import HEADING, LEFT, RIGHT, SIGN, panel_at, path, short, turned_at, words_at
from command.registers import STATUS
from command.report import LINES

ROW, BAND = 18, 14
NARROW, MOST_MOVED = 10, 24  # between the middles of two turned words; how far a word may stand from its mark
CROSSES = {"failed": 5, "over": 3}  # half the width of each
Marked = collections.namedtuple("Marked", "number word first", defaults=("", False))  # first: its word goes before the others


def band(plot, top, style, name, values):
    yield words_at(LEFT - 8, top + 11, name, "end")
    yield panel_at("row", top, top + BAND)
    yield path(f"band {style}", plot.steps([value or None for value in values], lambda _: top + BAND / 2))


def line_bands(plot, top, shown, chips):
    legend = "filled while asserted; the last row while the THERM pin is held low from outside"
    elements = [words_at(LEFT, top, "Lines", "heading", legend)]
    rows = [(field, name, [getattr(after, field) for after in shown]) for field, name in LINES.items()]
    rows.append(("pin", "pin low, outside", [int(chip.pin_low) for chip in chips]))
    for place, (style, name, values) in enumerate(rows):
        elements += band(plot, top + HEADING + ROW * place, style, name, values)
    bottom = top + HEADING + ROW * len(rows)
    return elements, [(top + HEADING, bottom)], bottom


def crosses(plot, middle, chips, what, fan, size):
    numbers = [number for number, chip in enumerate(chips, 1) if any((mark.what, mark.part) == (what, fan) for mark in chip.marks)]
    places = dict.fromkeys(short(plot.middle(number) - size) for number in numbers)
    return "".join(f"M{x} {short(middle - size)}l{2 * size} {2 * size}m0 {-2 * size}l{-2 * size} {2 * size}" for x in places)


def spin_bands(plot, top, chips):
    over = {mark.what for chip in chips for mark in chip.marks} & set(CROSSES)
    legend = "filled while it lasts" + "; crosses: tach count above its limit, small where it was not judged" * bool(over)
    elements = [words_at(LEFT, top, "Spin-ups", "heading", legend)]
    for fan in range(2):
        row = top + HEADING + ROW * fan
        elements += band(plot, row, f"spin{fan + 1}", f"fan {fan + 1} spin-up", [int(chip.spins[fan] > 0) for chip in chips])
        for what, size in CROSSES.items():
            elements.append(path(f"{what} of{fan + 1}", crosses(plot, row + BAND / 2, chips, what, fan, size)))
    bottom = top + HEADING + ROW * 2
    return elements, [(top + HEADING, bottom)], bottom


def placed(wanted, gap):
    """Where the words of the marks stand: all of them, a little aside where they are near each other, or those that have room."""
    moved = apart([x for x, _ in wanted], gap, RIGHT + gap)
    if all(abs(x - at) <= MOST_MOVED for (x, _), at in zip(wanted, moved)):
        return [(x, at, each) for (x, each), at in zip(wanted, moved)]
    taken = []
    for x, each in sorted(wanted, key=lambda pair: (not pair[1].first, pair[0])):
        if all(abs(x - other) >= gap for other, _, _ in taken):
            taken.append((x, x, each))
    return taken


def mark_row(plot, top, style, name, marked):
    """Ticks with their words under them, level where all have room, else turned; the elements, and the row's height."""
    wanted = [(plot.middle(each.number), each) for each in marked]
    ticks = dict.fromkeys(short(x) for x, _ in wanted)
    elements = [words_at(LEFT - 8, top + 9, name, "end"), panel_at("row", top, top + 9)]
    elements.append(path(f"mark {style}", "".join(f"M{x} {short(top)}v9" for x in ticks)))
    longest = max((len(each.word) for each in marked), default=0)
    if not longest:
        return elements, 16
    level = longest == 1 or all(after - x >= longest * SIGN + 3 for (x, _), (after, _) in zip(wanted, wanted[1:]))
    words = placed(wanted, NARROW)
    leaders = (f"M{short(x)} {short(top + 9)}L{short(at)} {short(top + 13)}" for x, at, _ in words if x != at)
    elements.append(path("leader", "".join(leaders)))
    elements += [words_at(at, top + 21, each.word, "byte") if level else turned_at(at + 3.5, top + 14, each.word) for _, at, each in words]
    if len(words) < len(wanted):
        elements.append(words_at(RIGHT + 12, top + 21, f"room for {len(words)} of {len(wanted):,} words", "legend"))
    return elements, 27 if level else 44


def mark_rows(plot, top, chips):
    marks = [(number, mark) for number, chip in enumerate(chips, 1) for mark in chip.marks]
    rows = []
    for place, address in enumerate(STATUS, 1):
        reads = [Marked(n, f"0x{m.value:02X}", m.value > 0) for n, m in marks if (m.what, m.part) == ("status", address)]
        rows.append((f"status{place}", f"0x{address:02X} read", reads))
    rows.append(("refused", "refused", [Marked(n, str(m.value)) for n, m in marks if m.what == "refused"]))
    rows.append(("start", "power, reset", [Marked(n) for n, m in marks if m.what in ("power", "reset")]))
    alerts = [Marked(n) for n, m in marks if m.what == "alert"]
    rows += [("alert", "alerts", alerts)] * bool(alerts)
    legend = "status reads with the byte handed out; refused events with the number of the reply"
    elements = [words_at(LEFT, top, "Events", "heading", legend)]
    top += HEADING
    for style, name, marked in rows:
        row, tall = mark_row(plot, top, style, name, marked)
        elements, top = elements + row, top + tall
    return elements, [], top


def axis(plot, top, chips):
    """Event numbers, and under them the seconds that the clock events have made up to there."""
    step = rounded_out(0, plot.count, 10)[2]
    elements = [path("axis", f"M{LEFT} {short(top)}H{RIGHT}"), words_at(LEFT - 20, top + 19, "event", "end")]
    clocks = chips[-1].clocks
    elements.append(words_at(LEFT - 20, top + 35, "seconds" if clocks else "no clock event", "end"))
    for number in [1] * (step > 2) + list(range(step, plot.count + 1, step)):
        x = plot.middle(number)
        elements += [path("axis", f"M{short(x)} {short(top)}v5"), words_at(x, top + 19, f"{number:,}", "middle")]
        elements += [words_at(x, top + 35, f"{chips[number - 1].clocks / 10:.1f}", "middle")] * bool(clocks)
    return elements, top + 44
