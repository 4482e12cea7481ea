"""Since when a fan turns or stands still, in words: how long is the program's age, from what on is known of the chip."""

MINUTE = 600  # clock events, a tenth of a second each
WORDS = {  # what set its stamp, whether it turned before that, and after: what is said of a fan that turns now, and of one that stands
    ("start", False, True): ("It has been turning for {}.", "It last started {} ago."),
    ("power", False, True): ("It has been turning for {}, since power came on.", "It last started when power came on, {} ago."),
    ("power", False, False): (None, "It has not started since power came on, {} ago."),
    ("reset", False, True): ("It has been turning for {}, since the software reset.", "It last started at the software reset, {} ago."),
    ("reset", True, True): (
        "It has been turning for {} since the software reset, and turned before it.",
        "It turned through the software reset, {} ago, and has not started since.",
    ),
    ("reset", False, False): (None, "It has not started since the software reset, {} ago."),
    ("reset", True, False): (None, "The software reset stopped it, {} ago, and it has not started since."),
}


def seconds_words(clocks):
    """From a minute on in minutes too."""
    minutes, rest = divmod(clocks, MINUTE)
    return f"{clocks / 10:.1f} seconds" + f" ({minutes} min {rest / 10:.1f} s)" * (minutes > 0)


def since_words(fan, reason, chip):
    what, turned, turns, _ = chip.since[fan - 1]
    turning, standing = WORDS[what, turned, turns]
    return (turning if chip.duties[fan - 1] else standing).format(seconds_words(reason.age))
