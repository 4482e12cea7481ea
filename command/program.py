"""The proved programs, run: `replay` for the report of a trace, `why` and `panel` for the reasons, with ages, and the panel after its last event."""
import concurrent.futures
import functools
import subprocess

from command.build import BUILT, ready
from command.status import BUILD, OUTPUT, USE, Failure

WORDS = {"could not be written": OUTPUT, "could not be read": USE}  # of the programs' own, and the status of each
AT_A_TIME = 4


def printed(name, text):
    """What a program prints of a trace."""
    try:
        ran = subprocess.run([BUILT[name]], input=text, capture_output=True)
    except OSError as error:
        raise Failure(BUILD, f"the program {name} cannot be run: {error}") from None
    said = ran.stderr.decode(errors="backslashreplace").strip()
    for line in said.split("\n"):  # below the program's own words stands what the system says of it
        for words, status in WORDS.items():
            if words in line:
                raise Failure(status, line)
    if said or ran.returncode:
        raise Failure(BUILD, f"the program {name} ended with status {ran.returncode}, and said: {said or 'nothing'}")
    return ran.stdout


def report_of(text):
    ready()
    return printed("replay", text)


def reasons_of(texts):
    """What is printed of each text; a run is short, so several go at a time."""
    ready()
    with concurrent.futures.ThreadPoolExecutor(AT_A_TIME) as pool:
        return list(pool.map(functools.partial(printed, "why"), texts))


def panel_of(text):
    ready()
    return printed("panel", text)
