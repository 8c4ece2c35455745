"""The lines of a service's log (docs/PROTOCOL, The log), by their kinds: the second word tells which."""


def of_kind(text, kind):
    """The lines whose second word this is."""
    return [line for line in text.splitlines() if line.split(" ", 2)[1:2] == [kind]]


def messages(text):
    """The lines of messages, and those that tell of several, or of a change."""
    return of_kind(text, "worker")


def events(text):
    """What the lines of the service itself say, without their times."""
    return [line.split(" ", 2)[2] for line in of_kind(text, "service")]
