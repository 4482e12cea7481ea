"""What is wrong with a line of a trace, in words."""
import re

from command.trace import KINDS, WORD, Event

MOST_SHOWN = 40  # bytes of a line
MARK = b"\xef\xbb\xbf"  # that some editors put before a text
ESCAPES = {9: r"\t", 13: r"\r", 34: r"\"", 92: r"\\"}


def shown(piece):
    """Bytes in quotes, those that are no ASCII escaped, cut where there are many."""
    signs = (ESCAPES.get(byte) or (chr(byte) if 32 <= byte < 127 else f"\\x{byte:02x}") for byte in piece[:MOST_SHOWN])
    return f'"{"".join(signs)}"' if len(piece) <= MOST_SHOWN else f'"{"".join(signs)}.." ({len(piece):,} bytes)'


def fault_at(text, number):
    """What is wrong with the line of this number, the first wrong or missing one of the text."""
    *lines, unended = text.split(b"\n")
    name = Event._fields[(number - 1) % len(Event._fields)]
    if number > len(lines) and not unended:
        return f"missing: the text ends where {name}= was due"
    ended = number <= len(lines)
    faults = list(line_faults(name, lines[number - 1] if ended else unended, ended))
    return "; ".join(faults + ["no newline at the end of the text"] * (not ended))


def line_faults(name, line, ended):
    if line.startswith(MARK):
        yield "it begins with a byte order mark, EF BB BF"
        line = line[len(MARK) :]
    inner = line.removesuffix(b"\r")
    bare = inner.strip(b" \t")
    if bare:
        yield from name_faults(name, bare)
        yield from ["a blank before it"] * (inner[:1] in (b" ", b"\t"))
        yield from ["a blank behind it"] * (inner[-1:] in (b" ", b"\t"))
    else:
        yield f"{'nothing but blanks' if inner else 'an empty line'} where {name}= was due"
    if inner != line:
        yield "it ends in CR LF" if ended else "it ends in CR"


def name_faults(name, line):
    before, sign, word = line.partition(b"=")
    if not sign:
        yield f"no = in {shown(line)}, and {name}= was due"
    elif before.strip(b" \t").decode("latin-1") != name:
        known = before.decode("latin-1") in Event._fields
        yield f"{before.decode() + '=' if known else shown(before + sign)} where {name}= was due"
    else:
        yield from ["a blank before ="] * (before[-1:] in (b" ", b"\t"))
        yield from ["a blank after ="] * (word[:1] in (b" ", b"\t"))
        yield from (kind_faults if name == "kind" else number_faults)(name, word.strip(b" \t"))


def kind_faults(_, word):
    if word.decode("latin-1") not in KINDS:
        yield f"{'unknown kind ' + shown(word) if word else 'no kind after kind='}; known are {', '.join(KINDS)}"


def number_faults(name, word):
    if not word:
        yield f"no number after {name}="
        return
    parts = re.fullmatch(rb"([+-]?)(0*)([0-9]*)", word)
    if not parts or word in (b"+", b"-"):
        yield f"{shown(word)} is no decimal number"
        return
    sign, zeros, digits = parts.groups()
    if sign == b"+":
        yield f"a plus sign in {shown(word)}"
    if sign == b"-" and not digits:
        yield f"{shown(word)} in place of 0"
    elif len(zeros) > (not digits):
        yield f"a leading zero in {shown(word)}"
    # no number of more digits is looked at, since one of thousands takes its time
    if len(digits) > len(str(WORD.start)) or int(sign + (digits or b"0")) not in WORD:
        size, end = ("small", f"{WORD[0]} is the least") if sign == b"-" else ("large", f"{WORD[-1]} is the most")
        yield f"{shown(word)} is too {size} for a signed 32-bit number, {end}"
