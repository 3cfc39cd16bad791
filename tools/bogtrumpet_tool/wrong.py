"""What is wrong with what the operator gave."""


class Wrong(Exception):
    """Told on standard error in one line; the status is then 2, and standard output is empty."""


def named(thing):
    """A word as a message shows it: in one line, and not a whole packet."""
    shown = "".join(letter if letter.isprintable() else "?" for letter in str(thing)[:48])
    return f"`{shown}{'..' if len(str(thing)) > 48 else ''}`"


def counted(number, one, many=None):
    """`1 datagram`, `1,280 bytes`."""
    return f"{number:,} {one if number == 1 else many or one + 's'}"
