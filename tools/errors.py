"""What ends a verb early, and with which status."""


class Refused(Exception):
    """What can't be done, or what an input has that doesn't fit."""

    status = 1


class WrongWords(Exception):
    """Words of the command line that don't fit: status 2."""


class NotAccepted(Refused):
    """A command that the program refuses."""

    status = 3


class NotConfirmed(Refused):
    """A question to which nobody said yes."""

    status = 4


class Unclear(Refused):
    """An answer that didn't come, or that can't be one: the log may have the command."""

    status = 5


class NotReady(Refused):
    """There is no program, or another process writes the file."""

    status = 125
