"""The command `replay`: the program's report as it is, and refused events in words."""
import collections

from command.words import reply_words

MOST_TOLD = 10


def output(case, options):
    return case.report


def notes(case):
    """A line for each refused event, where there are many for the first ones, and how many more there are of each kind."""
    pairs = enumerate(zip(case.events, case.shown), 1)
    refused = [(number, reply_words(event, shown)) for number, (event, shown) in pairs if shown.answer]
    yield from (f"event {number}: {words}" for number, words in refused[:MOST_TOLD])
    if len(refused) > MOST_TOLD:
        kinds = collections.Counter(words for _, words in refused[MOST_TOLD:]).most_common()
        yield f"and {len(refused) - MOST_TOLD:,} more: " + ", ".join(f"{count:,} {words}" for words, count in kinds)
