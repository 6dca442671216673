"""What the tools share: the lines of an input, and trouble that is told in one sentence."""
import os

HERE = os.path.dirname(os.path.abspath(__file__))


class Trouble(Exception):
    """A wrong input or a missing program, told in one sentence."""


def read_input(path):
    """The lines of an input."""
    try:
        with open(path, "rb") as file:
            data = file.read()
    except OSError as error:
        raise Trouble(f"{path} cannot be read: {error.strerror}") from error
    return data.split(b"\n")[:-1] if data.endswith(b"\n") else data.split(b"\n")
