"""Input of which no page is made."""


class Wrong(Exception):
    """A line for standard error, and the status with which the tool ends."""

    def __init__(self, said, status=3):
        super().__init__(said)
        self.status = status


def read(path):
    """The text of a file. A byte outside ASCII is told with its line."""
    try:
        with open(path, "rb") as file:
            held = file.read()
    except OSError as fault:
        raise Wrong(f"{path}: {fault.strerror}", 5) from None
    return decoded(path, held)


def decoded(name, held):
    """Bytes as text."""
    try:
        return held.decode("ascii")
    except UnicodeDecodeError as fault:
        line = 1 + held.count(b"\n", 0, fault.start)
        raise Wrong(f"{name}:{line}: a byte is no ASCII") from None
