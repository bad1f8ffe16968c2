"""The one error that ends the command with a sentence."""


class Trouble(Exception):
    """What keeps the command from being carried out."""


def reason(error):
    """The system's own words for an error of a file, without the number and the path that Python adds."""
    return getattr(error, "strerror", None) or str(error)
