"""Bytes to standard output or to a file, lines to standard error; a write that fails is a Failure and no traceback."""
import os
import sys

from command.status import OUTPUT, Failure

STANDARD_OUTPUT, STANDARD_ERROR = 1, 2


def say(words):
    """A line on standard error. Where that fails there is nobody to tell."""
    if sys.stderr is not None:  # else the number may be that of another file
        try:
            line = words.replace("\n", r"\n") + "\n"  # a file's name may have one
            write_all(STANDARD_ERROR, line.encode(errors="backslashreplace"))
        except OSError:
            pass


def write_all(place, data):
    """Writes without a buffer, so that nothing is left over for the end; gives None, or raises with `written` in the error."""
    rest = memoryview(data)
    while rest:
        try:
            rest = rest[os.write(place, rest) :]
        except OSError as error:
            error.written = len(data) - len(rest)
            raise


def write(data, name=None):
    """To a file, or to standard output where there is no name or it is `-`."""
    try:
        if name not in (None, "-"):
            with open(name, "wb", buffering=0) as file:
                write_all(file.fileno(), data)
        elif sys.stdout is None:
            raise Failure(OUTPUT, "the output could not be written: standard output is closed")
        else:
            write_all(STANDARD_OUTPUT, data)
    except BrokenPipeError as error:
        # a reader that took a part and left, as `head` does, has what it wanted
        raise Failure(OUTPUT, "" if error.written else "the output could not be written: nobody reads the pipe") from None
    except OSError as error:
        place = "" if name in (None, "-") else f" to {name}"
        raise Failure(OUTPUT, f"the output could not be written{place}: {error.strerror}") from None
