"""How the command ends: its statuses, and the failure that carries one of them with its words."""

DONE, MALFORMED, USE, BUILD, OUTPUT = range(5)
MEANINGS = {
    DONE: "done",
    MALFORMED: "the trace was malformed or too long; all but why and panel put out what comes before the wrong line",
    USE: "wrong use, no such file, or the trace could not be read",
    BUILD: "no toolchain, or the program was not built or does not work",
    OUTPUT: "the output could not be written",
}


class Failure(Exception):
    """Ends the command with a status; the words go to standard error, and there may be none."""

    def __init__(self, status, words):
        super().__init__(words)
        self.status = status
