"""Times of a room: whole milliseconds, except for those of configuration files and bounds, which are seconds."""


SECOND = 1000
# the longest time that a description or a configuration file may name, in seconds
LONGEST = 86_400


def seconds(time):
    return f"{time / SECOND:.1f}"


def short_seconds(time):
    """Returns a time with as few digits as possible."""
    return f"{time / SECOND:.3f}".rstrip("0").rstrip(".")
