"""Input and output of a command: reading a file or standard input, writing a file or standard output."""

import difflib
import os
import sys


class Failure(Exception):
    """What is told on standard error before the command ends with exit status 1."""


def read_input(name):
    """The input's name in messages, and its bytes. Fails with Failure where it cannot be read."""
    title = "standard input" if name == "-" else title_of(name)
    try:
        with open(0 if name == "-" else name, "rb", closefd=name != "-") as file:
            return title, file.read()
    except FileNotFoundError:
        raise Failure(f"{title}: found no such file: {file_meant(name)}") from None
    except OSError as error:
        raise Failure(f"{title}: cannot be read: {error.strerror}: name another file") from None


def title_of(name):
    """A file's name as messages show it: what is no text in it is replaced, and an empty name is quoted."""
    return os.fsencode(name).decode("utf-8", "replace") or "''"


def file_meant(name):
    """What to write for a file that is not there: the name most like it in its folder, or what a file may be."""
    folder, last = os.path.split(name)
    there = os.listdir(folder or ".") if os.path.isdir(folder or ".") else []
    alike = difflib.get_close_matches(last, there, 1)
    return f"did you mean {os.path.join(folder, alike[0])}?" if alike else "name a source or a tape"


def write_output(name, input_name, data):
    """Writes the bytes to the output. Fails with Failure where it cannot be written or is the input itself."""
    title, advice = ("standard output", "") if name == "-" else (title_of(name), ": name another file with -o")
    try:
        if name != "-" and os.path.exists(name) and is_input(name, input_name):
            raise Failure(f"{title}: cannot be written: it is the input{advice}")
        with open(1 if name == "-" else name, "wb", closefd=name != "-") as file:
            file.write(data)
    except BrokenPipeError:
        raise
    except OSError as error:
        raise Failure(f"{title}: cannot be written: {error.strerror}{advice}") from None


def is_input(name, input_name):
    """Whether the file of this name is the input, which may be a file that is standard input. Fails with OSError."""
    return os.path.samestat(os.stat(name), os.stat(0 if input_name == "-" else input_name))


def text_bytes(text):
    """The bytes of a text in UTF-8; what a file's name has of other bytes becomes a question mark."""
    return text.encode("utf-8", "replace")


def is_terminal(stream):
    """Whether a stream is there and is a terminal."""
    return stream is not None and stream.isatty()


def check_binary(name, what):
    """Fails with Failure where bytes that are no text would be written to a terminal."""
    if name == "-" and is_terminal(sys.stdout):
        raise Failure(f"standard output is a terminal: name a file for the {what} with -o")
