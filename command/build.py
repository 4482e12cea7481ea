"""The proved programs: proved and built where one is missing or older than what it is made of."""
import functools
import os
import pathlib
import re
import shutil
import subprocess
import time

from command.output import say
from command.status import BUILD, Failure

ROOT = pathlib.Path(__file__).resolve().parent.parent
CRATES = ROOT / "crates"
OUT = "out"  # of a crate, where rt keeps its work and puts what it builds
BUILT = {name: ROOT / "target" / "bin" / name for name in ("replay", "why", "panel")}
LOG = ROOT / "target" / "keeper.log"
TOLD = re.compile(r"crate (?P<name>\w+): modules|logic=(?P<verdict>proved|not-proved)\b|rt: the library (?P<failed>\w+) did not build")


def sources():
    yield ROOT / "crates.txt"
    for folder, inner, files in os.walk(CRATES):
        if os.path.dirname(folder) == str(CRATES) and OUT in inner:
            inner.remove(OUT)
        yield from (pathlib.Path(folder, file) for file in (".", *files))


def up_to_date():
    """Whether the programs can be run, and nothing that they are made of is newer."""
    if not all(os.access(program, os.X_OK) for program in BUILT.values()):
        return False
    built = min(program.stat().st_mtime_ns for program in BUILT.values())
    return not any(os.path.lexists(source) and source.lstat().st_mtime_ns > built for source in sources())


def stands_on(names):
    """The crates of crates.txt that are proved for these, themselves among them."""
    listed = (ROOT / "crates.txt").read_text() if (ROOT / "crates.txt").exists() else ""
    below = {crate: names.split() for crate, names in re.findall(r"^(\w+):(.*)$", listed, re.M)}
    found, wanted = set(), list(names)
    while wanted:
        crate = wanted.pop()
        if crate in below and crate not in found:
            found.add(crate)
            wanted += below[crate]
    return found


def progress(lines, done, count):
    """Tells each crate as it is proved, and of how many; those below it are proved before it, though rt says nothing of one that is as it was."""
    name, failed, began = None, None, time.monotonic()
    for line in lines:
        told = TOLD.match(line.decode(errors="replace"))
        if told and told["name"]:
            name = told["name"]
        elif told and name and told["verdict"] == "proved":
            done |= stands_on([name])
            say(f"  {name} proved, {len(done)} of {count} ({time.monotonic() - began:.0f} s)")
            began = time.monotonic()
        elif told and told["verdict"] != "proved" and failed != (told["failed"] or name):
            failed = told["failed"] or name
            say(f"  {failed} NOT PROVED")
        yield line


def prove(log):
    """Proves, builds and runs each program, and gives whether rt says that all is well. It gets no standard input, since the trace may be there."""
    done, count = set(), len(stands_on(BUILT))
    say(f"keeper: proving {count} crates and building the program, which takes some minutes the first time")
    for name in BUILT:
        command = {"args": ["rt", "run"], "cwd": CRATES / name, "stdin": subprocess.DEVNULL}
        with subprocess.Popen(**command, stdout=subprocess.PIPE, stderr=subprocess.STDOUT) as rt:
            log.writelines(progress(rt.stdout, done, count))
        if rt.returncode:
            return False
    return True


def put(name, began):
    """Puts a program where it is run, dated to when the proof began: a file that changed meanwhile is newer."""
    program = BUILT[name]
    program.parent.mkdir(exist_ok=True)
    part = program.with_name(f"{name}.part")
    shutil.copy(CRATES / name / OUT / name, part)
    os.utime(part, ns=(began, began))
    os.replace(part, program)  # whoever runs the one before keeps it


def build():
    if not shutil.which("rt"):
        raise Failure(BUILD, "the program must be built, and the Rattle toolchain is missing: no command rt on the path")
    try:
        for name in stands_on(BUILT):
            if (CRATES / name).is_dir():
                (CRATES / name / OUT).mkdir(exist_ok=True)  # else the crate's folder is newer than the program
        LOG.parent.mkdir(exist_ok=True)
        LOG.touch()
        with LOG.open("wb") as log:
            began = LOG.stat().st_mtime_ns - 1  # by the clock that dates the sources too; one changed at that very moment is newer
            if not prove(log):
                raise Failure(BUILD, f"the program is not built; {LOG} says why")
        for name in BUILT:
            put(name, began)
    except OSError as error:
        raise Failure(BUILD, f"the program is not built: {error}") from None


@functools.cache
def ready():
    """That the programs are built, looked up once."""
    if not up_to_date():
        build()
