"""A copy of ./keeper in a tree of its own, so that no test proves anything or touches what is built here."""
import concurrent.futures
import functools
import os
import pathlib
import re
import shutil
import subprocess
import sys

ROOT = pathlib.Path(__file__).resolve().parent.parent
PROGRAMS = ("replay", "why", "panel")
PROGRAM, WHY, PANEL = (ROOT / "target" / "bin" / name for name in PROGRAMS)
TOOLS = "cat cp dirname mkdir readlink sh".split()
SECONDS = 60  # more than any use takes


class Findings:
    """What a test found wrong, and how much it looked at."""

    def __init__(self):
        self.faults, self.looked = [], 0

    def check(self, right, words):
        self.looked += 1
        if not right:
            self.faults.append(words)

    def end(self, name, least):
        """Prints them and ends. A test that looked at less than it should is a fault too."""
        self.check(self.looked >= least, f"{self.looked} checks, and {least} were due")
        print("\n".join([*self.faults, f"{name}: {self.looked} checks, {len(self.faults)} faults"]))
        sys.exit(1 if self.faults else 0)


class Tree:
    """The command with the built programs, or stand-ins for them; the folder of tools has no rt until one is put there."""

    def __init__(self, room):
        self.folder, self.tools = room / "tree", room / "tools"
        for folder in (self.folder / "crates", self.folder / "target" / "bin", self.tools):
            folder.mkdir(parents=True)
        for tool in TOOLS:
            (self.tools / tool).symlink_to(shutil.which(tool))
        (self.tools / "python3").symlink_to(sys.executable)
        shutil.copytree(ROOT / "command", self.folder / "command", ignore=shutil.ignore_patterns("__pycache__"))
        for name in ("keeper", "VERSION"):
            shutil.copy(ROOT / name, self.folder)
        self.programs = {name: self.folder / "target" / "bin" / name for name in PROGRAMS}
        self.restore()

    def restore(self):
        """The programs as they were built, newer than the crates of the tree."""
        for built, program in zip((PROGRAM, WHY, PANEL), self.programs.values()):
            program.unlink(missing_ok=True)
            shutil.copy(built, program)

    def stand_in(self, script, name="replay"):
        """A shell script in place of a program; it gets the trace on standard input."""
        self.programs[name].unlink(missing_ok=True)
        self.programs[name].write_text(f"#!/bin/sh\n{script}\n")
        self.programs[name].chmod(0o755)

    def says(self, printed, name="replay"):
        """A stand-in that says this of every trace."""
        (self.folder / f"{name}.says").write_bytes(printed)
        self.stand_in(f"exec {self.tools / 'cat'} '{self.folder / name}.says'", name)

    def toolchain(self, script):
        (self.tools / "rt").unlink(missing_ok=True)
        if script:
            (self.tools / "rt").write_text(script)
            (self.tools / "rt").chmod(0o755)

    def keeper(self, *words, given=b"", **others):
        """Runs it. Standard input has what is given, unless there is another stdin."""
        if "stdin" not in others:
            others["input"] = given
        others = {"stdout": subprocess.PIPE, "stderr": subprocess.PIPE, "cwd": self.folder, "timeout": SECONDS, **others}
        return subprocess.run([self.folder / "keeper", *words], env={"PATH": str(self.tools)}, **others)


def need_program():
    for name in PROGRAMS:
        if not (ROOT / "target" / "bin" / name).exists():
            sys.exit(f"target/bin/{name} is missing; tests/programs builds it")
    if not os.access(ROOT / "keeper", os.X_OK):
        sys.exit("keeper is missing, or cannot be run")


def why_of(text):
    """Both reasons and both ages that the program `why` prints of a text, or what it prints where these are not all of it."""
    printed = subprocess.run([WHY], input=text, capture_output=True).stdout.decode("latin-1")
    found = re.fullmatch("reason1=(.*)\nreason2=(.*)\nage1=(.*)\nage2=(.*)\n", printed)
    return found.groups() if found else printed


@functools.cache
def whys_of(text, count):
    """That of the text up to the end of each of so many events."""
    ends = [found.end() for found in re.finditer(rb"(?:[^\n]*\n){4}", text)][:count]
    with concurrent.futures.ThreadPoolExecutor(4) as pool:
        return list(pool.map(lambda end: why_of(text[:end]), ends))


def reasons_of(text, count):
    return [words if isinstance(words, str) else words[:2] for words in whys_of(text, count)]


def ages_of(text, count):
    return [words if isinstance(words, str) else words[2:] for words in whys_of(text, count)]


def reading_of(channel, sample, byte):
    """The rule for a sample under the byte of its offset register, worked out here once more for the tests."""
    degrees = byte % 16 if byte < 128 else -(byte % 16)
    return sorted((-1024, sample + 8 * degrees, 1023 if channel else 1022))[1]


def text_of(events):
    """Events as `power 44 0 0, clock 0 0 0` to the text of a trace."""
    return "".join("kind={}\nwho={}\narg={}\nval={}\n".format(*event.split()) for event in events.split(",")).encode()
