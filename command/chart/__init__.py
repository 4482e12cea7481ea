"""The command `chart`: a case as an SVG picture over the number of the event."""
import pathlib

from command.chart.picture import picture


def options(parser):
    parser.add_argument("--title", help="instead of the trace's file name")


def output(case, options):
    standard = case.name in (None, "-")
    title = options.title if options.title is not None else "a trace" if standard else pathlib.Path(case.name).stem
    return picture(title, case).encode(errors="replace")
