"""The table of the commands, the command line, and the way of every command: trace, program, output, status."""
import argparse
import functools
import importlib
import os

from command import program, trace
from command.build import ROOT
from command.case import case_of
from command.output import say, write
from command.status import DONE, MALFORMED, MEANINGS, USE, Failure

# Each is a module of its name here: output(case, options) gives the bytes to put out; it may have options(parser), which adds options
# of its own, and notes(case), lines for standard error.
COMMANDS = {
    "replay": "the program's report as it is; refused events in words on standard error",
    "table": "one row an event, in words, with the reasons for the duties; --csv for a spreadsheet",
    "chart": "a picture in SVG: temperatures and limits, duties and the reasons for them, lines, spin-ups, status reads",
    "why": "why each fan runs as it does after the last event, and since when: the program's words, and what to read out",
    "panel": "the wheelhouse panel after the last event: temperatures in degrees, fan speeds in revolutions a minute",
}
INTERRUPTED = 130

HELP = """Usage: ./keeper COMMAND [FILE]
Runs a trace of events through the proved fan keeper. FILE is a trace; without one, or with -, it is on standard input.
The programs are proved and built first where that is due: some 4 minutes the first time.

Commands:
{commands}

./keeper COMMAND --help says what options it has; ./keeper --version says which version this is.
A malformed line of the trace is told in words on standard error, by every command.

Statuses:
{statuses}

Example: ./keeper table examples/incident.trace
"""


class Parser(argparse.ArgumentParser):
    def error(self, message):
        raise Failure(USE, f"{message}; {self.prog} --help says more")


def parser_of(name, command):
    lay_out = functools.partial(argparse.HelpFormatter, width=120, max_help_position=30)
    called = f"./keeper {name}"
    parser = Parser(called, usage=f"{called} [OPTIONS] [FILE]", add_help=False, allow_abbrev=False, formatter_class=lay_out)
    parser.description = f"Gives {COMMANDS[name]}."
    parser.add_argument("trace", nargs="*", metavar="FILE", help="a trace; without one, or with -, it is on standard input")
    parser.add_argument("-o", "--output", metavar="FILE", help="write to this file instead of standard output")
    if hasattr(command, "options"):
        command.options(parser)
    parser.add_argument("-h", "--help", action="store_true", help="say this")
    return parser


def help_text():
    commands = "\n".join(f"  {name:8}{summary}" for name, summary in COMMANDS.items())
    return HELP.format(commands=commands, statuses="\n".join(f"  {number}  {words}" for number, words in MEANINGS.items()))


def command_named(name):
    if name not in COMMANDS:
        raise Failure(USE, f"no such command: {name}; there are {', '.join(COMMANDS)}; ./keeper --help says more")
    return importlib.import_module(f"command.{name}")


def trace_named(options):
    if len(options.trace) > 1:
        raise Failure(USE, f"one trace at a time, and {len(options.trace)} names are given")
    name = options.trace[0] if options.trace else None
    if name and options.output and os.path.exists(name) and os.path.exists(options.output) and os.path.samefile(name, options.output):
        raise Failure(USE, f"the output would be written over the trace: {name}")
    return name


def run(words):
    if not words:
        raise Failure(USE, "name a command; ./keeper --help says which there are")
    if words[0] in ("-h", "--help", "--version"):
        write((ROOT / "VERSION").read_bytes() if words[0] == "--version" else help_text().encode())
        return DONE
    command = command_named(words[0])
    parser = parser_of(words[0], command)
    options = parser.parse_args(words[1:])
    if options.help:
        write(parser.format_help().encode())
        return DONE
    name = trace_named(options)
    text = trace.read(name)
    case = case_of(name, text, program.report_of(text))
    write(command.output(case, options), options.output)
    for line in [*(command.notes(case) if hasattr(command, "notes") else ()), *([case.ending] if case.ending else ())]:
        say(line)
    return MALFORMED if case.ending else DONE


def main(words):
    try:
        return run(words)
    except Failure as failure:
        if str(failure):
            say(f"keeper: {failure}")
        return failure.status
    except KeyboardInterrupt:
        say("keeper: interrupted")
        return INTERRUPTED
