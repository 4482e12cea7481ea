"""A panel with a scale and lines, and the names of the lines beside their ends."""
import itertools

from command.chart.svg import LEFT, RIGHT, panel_at, path, short, words_at

NAME_HEIGHT = 15


class Panel:
    """A place in the picture, and the numbers that its edges stand for."""

    def __init__(self, top, tall, low, high, step):
        self.top, self.bottom = top, top + tall
        self.low, self.high, self.ticks = low, high, range(low, high + 1, step)

    def y(self, value):
        return self.bottom - (value - self.low) * (self.bottom - self.top) / (self.high - self.low)


def rounded_out(low, high, most):
    """Low and high as multiples of a step, the least of 1, 2, 5, 10, 20, .. with at most so many between them; and the step."""
    for step in (digit * 10**power for power in itertools.count() for digit in (1, 2, 5)):
        below, above = int(low // step), -int(high // -step)
        if above - below <= most:
            return below * step, above * step, step


def apart(wanted, gap, most):
    """Places near those wanted, which rise, with at least a gap between each and the next, none above the most."""
    places = list(wanted)
    for i in range(1, len(places)):
        places[i] = max(places[i], places[i - 1] + gap)
    for i in reversed(range(len(places))):
        places[i] = min(places[i], places[i + 1] - gap if i + 1 < len(places) else most)
    return places


def names(panel, lines):
    """Each line's name, with a piece of it and its last value; a line that ends before the last event has no leader."""
    ends = sorted((panel.y([value for value in line[2] if value is not None][-1]), line) for line in lines)
    heights = apart([end for end, _ in ends], NAME_HEIGHT, panel.bottom)
    for height, (end, (style, name, values, unit)) in zip(heights, ends):
        lasts = values[-1] is not None
        yield path("leader", f"M{RIGHT} {short(end)}L{RIGHT + 12} {short(height)}" if lasts else "")
        yield path(style, f"M{RIGHT + 12} {short(height)}h25")
        yield words_at(RIGHT + 42, height + 4, f"{name}: {unit(values[-1])}" if lasts else name)


def ground(style, panel):
    """The panel and its scale."""
    yield panel_at(style, panel.top, panel.bottom)
    for tick in panel.ticks:
        yield path("grid", f"M{LEFT} {short(panel.y(tick))}H{RIGHT}")
        yield words_at(LEFT - 8, panel.y(tick) + 4, str(tick), "end")


def curves(plot, panel, lines, hints=()):
    """Each line is a style, a name, the values after the events and the words of a value; hints are by the first word of a style."""
    for style, name, values, _ in lines:
        hint = dict(hints).get(style.split()[0])
        yield path(style, plot.steps(values, panel.y), f"{name}: {hint}" if hint else "")
    yield from names(panel, lines)
