"""How the tests read the crates: functions and their contracts in .rt, imports and definitions in .antt."""
import collections
import pathlib
import re

ROOT = pathlib.Path(__file__).resolve().parent.parent
CRATES = ROOT / "crates"
NAME = r'[^\s(){}.;,@"`]+'  # a name of antt, whole: digits, primes and dashes are parts of it

Function = collections.namedtuple("Function", "path public name parameters result requires ensures")
Import = collections.namedtuple("Import", "module name given")
Definition = collections.namedtuple("Definition", "name kind line")

HEAD = re.compile(r"\b(pub\b[^\n;{}]*?)?\bfn\s+(\w+)\s*(?=[<(])")
SELF = re.compile(r"\s*(&\s*(?:'\w+\s+)?(?:mut\s+)?)self\b")
CLAUSE = re.compile(r"\b(requires|ensures)\b\*?(?:\s+\w+)?\s*(?=\{)|\{")  # a clause may have a name
NO_CODE = re.compile(r"""//[^\n]*|/\*.*?\*/|b?"(?:\\.|[^"\\])*"|b?'(?:\\.|[^'\\])'""", re.S)
NO_TERM = re.compile(r'\{-.*?-\}|(?<![^\s(){}.;,@"])--[^\n]*', re.S)
USE = re.compile(rf"^ *(?:(?:unfoldable|pub|ghost) +)*use +([^\s{{}};:]+?)(?:\.\{{([^}}]*)\}})?(?: +as +({NAME}))?;? *$", re.M)
MARKS = r"(?:(?:pattern|unfoldable|abbrev|pub|axiom) +)*"
SIGNATURE = re.compile(rf"^( *){MARKS}(?:(record|data) +({NAME})|(module|mutual)\b|((?:{NAME}\s+)+?)(?:\{{[^}}]*\}}\s+)?:(?:\s|$))")
NO_NAME = {"let", "in", "where", "use", "mod", "λ", "=", "→", "←", "≡"}


def own(module):
    """Whether a module is of a crate of this repository, and not of the kit."""
    first, _, rest = module.partition(".")
    return first == "Rattle" and (CRATES / rest.split(".")[0]).is_dir()


def specified(module):
    """Whether a module is a specs file of ours, or has the generated types and constants of one of our crates."""
    return own(module) and module.split(".")[2:3] == ["specs"]


def texts(pattern):
    """The files of the crates that are read by a check, none of what rt puts into out/."""
    return [path for path in sorted(CRATES.glob(pattern)) if path.relative_to(CRATES).parts[1] != "out"]


def kept_lines(found):
    return "\n" * found[0].count("\n")


def code(path):
    """The text of a .rt file without comments and strings."""
    return NO_CODE.sub(kept_lines, path.read_text())


def terms(path):
    """The text of an .antt file without comments."""
    return NO_TERM.sub(kept_lines, path.read_text())


def closed(text, at):
    """The index after the bracket that closes the one at an index."""
    ends = {"(": ")", "{": "}"}[text[at]]
    depth = 0
    for i in range(at, len(text)):
        depth += (text[i] == text[at]) - (text[i] == ends)
        if depth == 0:
            return i + 1
    return len(text)


def past_generics(text, at):
    """The index of the bracket that opens a function's parameters: behind its type parameters, whose bounds may have arrows."""
    depth = 0
    for i in range(at, len(text)):
        if text[i] == "(" and depth == 0:
            return i
        depth += (text[i] == "<") - (text[i] == ">" and text[i - 1] != "-")
    return len(text)


def functions(path):
    """Every function of a .rt file, with the texts of its contract's clauses."""
    text = code(path)
    for head in HEAD.finditer(text):
        start = past_generics(text, head.end())
        at = closed(text, start)
        found = CLAUSE.search(text, at)
        result = text[at : found.start() if found else at].strip().removeprefix("->").strip()
        result = re.split(r"\bwhere\b", result)[0].strip()
        clauses = {"requires": [], "ensures": []}
        while found and found[1]:
            end = closed(text, found.end())
            clauses[found[1]].append(" ".join(NO_TERM.sub("", text[found.end() + 1 : end - 1]).split()))
            found = CLAUSE.search(text, end)
        given = text[start + 1 : at - 1]
        lent_self = SELF.match(given)
        parameters = [("self", f"{lent_self[1]}self")] if lent_self else []
        parameters += re.findall(r"(\w+)\s*:\s*([^,]+)", given)
        yield Function(path, bool(head[1]), head[2], parameters, result, clauses["requires"], clauses["ensures"])


def imports(path):
    """Each name that a file brings in: its module, its name there (None: the module itself), the name that it is given."""
    text = code(path) if path.suffix == ".rt" else terms(path)
    for module, names, given in USE.findall(text):
        if not names:
            yield Import(module, None, given or module.split(".")[-1])
        for item in filter(None, map(str.strip, names.split(","))):
            place, _, other = item.partition(" as ")
            *inner, name = place.strip().split(".")
            yield Import(".".join([module, *inner]), name, other.strip() or name)


def definitions(path):
    """Each name that an .antt file declares: top (in the module), field, constructor or local (in a definition)."""
    around = []  # the declarations that the line may stand in: indent and kind
    inside = {"record": "field", "data": "constructor", "name": "local"}
    lines = terms(path).splitlines()
    for line, (text, after) in enumerate(zip(lines, [*lines[1:], ""]), 1):
        found = SIGNATURE.match(f"{text} :" if after.lstrip().startswith(": ") else text)
        names = (found[3] or found[5] or "").split() if found else []
        if not found or NO_NAME & set(names):
            continue
        while around and around[-1][0] >= len(found[1]):
            around.pop()
        kind = next((inside[kind] for _, kind in around if kind in inside), "top")
        around.append((len(found[1]), found[2] or found[4] or "name"))
        yield from (Definition(name, kind, line) for name in names)


def blocks(path):
    """The whole text of each definition of a specs file, by its name: from its signature to its last field or clause."""
    lines = path.read_text().splitlines()
    for name, kind, line in definitions(path):
        if kind == "top":
            end = line
            for i in range(line, len(lines)):
                first = lines[i].split(" ")[0]
                if lines[i].startswith(" ") or first in (name, "unfolding"):
                    end = i + 1
                elif lines[i] and not lines[i].startswith("--"):
                    break
            yield name, "\n".join(lines[line - 1 : end]) + "\n"


def pieces(text):
    """The words and the bracketed groups of a term on one line, in their order."""
    found, at = [], 0
    while at < len(text):
        end = closed(text, at) if text[at] in "({" else at + len(re.match(r"[^ ][^(){} ]*| +", text[at:])[0])
        found += [text[at:end]] if text[at] != " " else []
        at = end
    return found


def split(text, symbol):
    """The parts of a term between the places where a symbol stands outside every bracket."""
    parts = [[]]
    for piece in pieces(text):
        if piece == symbol:
            parts.append([])
        else:
            parts[-1].append(piece)
    return [" ".join(part) for part in parts]


def binders(text):
    """The names and types of a row of binders, `(a b : T) {c : U}`; None if the text is anything else."""
    found = []
    for piece in pieces(text):
        names, colon, kind = piece[1:-1].partition(" : ")
        if piece[0] not in "({" or not colon or not re.fullmatch(rf"{NAME}(?: {NAME})*", names):
            return None
        found += [(name, kind) for name in names.split()]
    return found


def unbracketed(text):
    """A term without brackets around the whole of it."""
    while text.startswith("(") and closed(text, 0) == len(text):
        text = text[1:-1].strip()
    return text


def words(text):
    """The names of a term, each whole."""
    return set(re.findall(NAME, text))
