"""The error of an input that cannot be read."""


class Malformed(ValueError):
    """An input that is no text, Gambit file or slip; the message says in one line what is wrong, and on which line."""

    def __init__(self, message: str, line: int | None = None):
        super().__init__(message if line is None else f"line {line}: {message}")
