"""The elements of a picture in SVG, and the place of an event in it."""
import html
import itertools

WIDTH, LEFT, RIGHT = 1040, 124, 816
HEADING = 8  # from the foot of a heading to what it is over
SIGN = 6.6  # the width of a sign of a label, at most, in the font's size of 11 or 12

STYLE = """
text { font: 12px system-ui, -apple-system, "Segoe UI", Roboto, "DejaVu Sans", Arial, sans-serif; fill: #222 }
.title { font-size: 18px; font-weight: bold } .heading { font-weight: bold } .legend { font-weight: normal; font-size: 11px; fill: #555 }
.end { text-anchor: end } .middle { text-anchor: middle }
.byte, .piece { font-size: 10px; text-anchor: middle } .turned { font-size: 10px; text-anchor: end }
.paper { fill: #fff } .panel { fill: #f3f3f3 } path { fill: none; stroke: #222; stroke-width: 1.2 } .grid { stroke: #d5d5d5 }
.guide { stroke: #999; stroke-dasharray: 1 3 } .leader { stroke: #999; stroke-width: 1 } .reading, .duty { stroke-width: 2.2 }
.local { stroke: #0072b2 } .remote1 { stroke: #d55e00; stroke-dasharray: 12 3 } .remote2 { stroke: #009e73; stroke-dasharray: 2.5 2.5 }
.limit { stroke-dasharray: 6 6 } .limit.remote2 { stroke-dashoffset: 6 } .high, .low { stroke-dasharray: 1.5 3 }
.hold { stroke: none; fill: #0072b2; fill-opacity: 0.16 } .hold.remote1 { fill: #d55e00 } .hold.remote2 { fill: #009e73 }
.set { stroke: none; fill: #0072b2 } .set.remote1 { fill: #d55e00 } .set.remote2 { fill: #009e73 }
.fan2 { stroke: #aa4499; stroke-dasharray: 7 4 }
.band, .because { stroke: #444; stroke-width: 14 } .pin { stroke: #b8860b } .spin1, .spin2, .spin { stroke: #bbb } .failed { stroke-width: 2.4 }
.because.demand { stroke-width: 7 } .because.ramp { stroke: none; fill: #777 } .because.manual, .because.zero, .because.disabled { stroke-width: 3 }
.because.disabled { stroke-dasharray: 2 2 } .because.local { stroke: #0072b2 } .because.remote1 { stroke: #d55e00 } .because.remote2 { stroke: #009e73 }
"""


class Plot:
    """Event n takes up the picture from place n - 1 to place n."""

    def __init__(self, count):
        self.count = count

    def x(self, place):
        return LEFT + (RIGHT - LEFT) * place / self.count

    def middle(self, number):
        return self.x(number - 0.5)

    def steps(self, values, y):
        """A line that is level while the value stays the same, with a gap where it is None."""
        data, before = "", None
        for value, start, end in stretches(values):
            if value is not None:
                data += f"M{short(self.x(start))} {short(y(value))}" if before is None else f"V{short(y(value))}"
                data += f"H{short(self.x(end))}"
            before = value
        return data


def stretches(values):
    """Each value that stays the same for a while, with the places where it begins and ends."""
    place = 0
    for value, stretch in itertools.groupby(values):
        start, place = place, place + len(list(stretch))
        yield value, start, place


def events_words(start, end):
    """The events that a stretch is of."""
    return f"event {end}" if end - start == 1 else f"events {start + 1} to {end}"


def short(number):
    return f"{round(number, 2):g}"


def words_at(x, y, words, style="label", legend=""):
    more = f'<tspan class="legend" dx="10">{html.escape(legend)}</tspan>' if legend else ""
    return f'<text class="{style}" x="{short(x)}" y="{short(y)}">{html.escape(words)}{more}</text>'


def turned_at(x, y, words):
    """Words that are read from below, their end at the top."""
    return f'<text class="turned" x="{short(x)}" y="{short(y)}" transform="rotate(-90 {short(x)} {short(y)})">{html.escape(words)}</text>'


def path(style, data, hint=""):
    """The hint is shown where a reader points at it."""
    end = f"><title>{html.escape(hint)}</title></path>" if hint else "/>"
    return f'<path class="{style}" d="{data}"{end}' if data else ""


def panel_at(style, top, bottom):
    return f'<rect class="panel {style}" x="{LEFT}" y="{short(top)}" width="{RIGHT - LEFT}" height="{short(bottom - top)}"/>'
