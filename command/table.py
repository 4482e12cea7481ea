"""The command `table`: one row an event, in words for people or as CSV for a spreadsheet."""
import csv
import io

from command.history import follow
from command.reasons import Reason, after_each
from command.report import FULL, LINES, Shown
from command.trace import Event
from command.words import event_words, percent, reply_words

WIDTH, ROOM = 120, 47  # of a row, where its words have room in it; that which the longest words of an event need
HEAD = ("event", "what happens", "answer", "lines", "duty 1", "reason 1", "duty 2", "reason 2")
GAPS = (0, 2, 2, 2, 2, 1, 2, 1)  # before each column
RIGHT = (0,)  # columns whose words stand at the right
WORDS = 1  # the column that gets the room which the others leave
MORE = ("data hex", "percent1", "percent2", "reason1", "reason2", "age1", "age2")  # columns of the CSV behind those of the report
CSV_HEAD = ("event", *Event._fields, "words", *Shown._fields[:1], "reply", *Shown._fields[1:], *MORE)


def options(parser):
    parser.add_argument("--csv", action="store_true", help="comma-separated values with a header row, for a spreadsheet; has the fans' ages too")


def output(case, options):
    return (csv_of(case) if options.csv else table_of(case)).encode()


def told(case):
    """Number, event, what was shown, the chip after it, and the reasons for its duties."""
    return list(zip(range(1, len(case.events) + 1), case.events, case.shown, follow(case), after_each(case)))


def duty_words(duty):
    return f"{duty:3} {percent(duty):3}%"


def lines_words(shown, known):
    """Of the lines that are asserted at some event, each by name where it is asserted now, else a dot."""
    words = (LINES[field] if getattr(shown, field) else ".".ljust(len(LINES[field])) for field in known)
    return " ".join(words).rstrip() or "."


def short(reason, chip):
    """The number of the channel, as the program has it; on the ramp the way and the target alone, for the duty stands beside it."""
    return " ".join(reason.more[1:] if reason.what == "ramp" else (reason.first(chip), *reason.more))


def rows_of(all_told, reason_words):
    """The rows but for the events' words, which depend on the room; no reason, before power, is a dot."""
    known = [field for field in LINES if any(getattr(shown, field) for _, _, shown, _, _ in all_told)]
    for number, event, shown, chip, reasons in all_told:
        one, two = (reason_words(reason, chip) for reason in reasons) if reasons else ".."
        duties = (duty_words(shown.duty1), one, duty_words(shown.duty2), two)
        yield [str(number), "", reply_words(event, shown), lines_words(shown, known), *duties]


def table_of(case):
    """With the channels' names in the reasons where they have room, else short; every event in words, or by its numbers where it has none."""
    all_told = told(case)
    wanted = max((len(event_words(event, shown, chip, ROOM)) for _, event, shown, chip, _ in all_told), default=0)
    for reason_words in (Reason.named, short):
        rows = [list(HEAD), *rows_of(all_told, reason_words)]
        widths = [max(map(len, column)) for column in zip(*rows)]
        room = WIDTH - sum(GAPS) - sum(widths) + widths[WORDS]
        if wanted <= room:
            break
    room = max(wanted, room)
    for cells, (_, event, shown, chip, _) in zip(rows[1:], all_told):
        cells[WORDS] = event_words(event, shown, chip, room)
    widths[WORDS] = max(len(cells[WORDS]) for cells in rows)
    return "".join(line_of(cells, widths) for cells in rows)


def line_of(cells, widths):
    padded = (cell.rjust(width) if place in RIGHT else cell.ljust(width) for place, (cell, width) in enumerate(zip(cells, widths)))
    return "".join(" " * gap + cell for gap, cell in zip(GAPS, padded)).rstrip() + "\n"


def csv_of(case):
    """RFC 4180, in ASCII alone, since a spreadsheet may take the text for any encoding; reasons in the program's words, ages in clock events."""
    text = io.StringIO()
    writer = csv.writer(text, lineterminator="\r\n")
    writer.writerow(CSV_HEAD)
    for number, event, shown, chip, reasons in told(case):
        words = event_words(event, shown, chip).replace("°C", "C")
        data = f"0x{shown.data:02X}" if event.kind == "read" and not shown.answer else ""
        percents = [f"{100 * duty / FULL:.4g}" for duty in (shown.duty1, shown.duty2)]
        because = [*(reason.words() for reason in reasons), *(reason.age for reason in reasons)] if reasons else [""] * 4
        writer.writerow([number, *event, words, shown.answer, reply_words(event, shown), *shown[1:], data, *percents, *because])
    return text.getvalue()
