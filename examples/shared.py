"""What the commands of this folder share: their words, reading and writing, and an end without a traceback. It also puts tools/ on
the path, where floats.py and rules.py are."""
import os
import sys

ROOT = os.path.join(os.path.dirname(os.path.abspath(__file__)), "..")
sys.path.insert(0, os.path.join(ROOT, "tools"))


class Wrong(Exception):
    """What was given cannot be used; the message says why."""


def say(text, end="\n"):
    """Writes on standard error, if that is open."""
    try:
        os.write(2, (text + end).encode(errors="backslashreplace"))
    except OSError:
        pass


def read(path, most):
    """The bytes of a file, or of standard input where there is no path. They end one byte after the most, so that a longer file is
    seen to be."""
    try:
        with open(0 if path is None else path, "rb", closefd=path is not None) as file:
            return file.read(most + 1)
    except OSError as error:
        raise Wrong("cannot read %s: %s" % (path or "standard input", error.strerror)) from None


def write(data):
    """Writes bytes on standard output, past Python's buffer: what is wrong with the output then shows here, and not at the end."""
    try:
        while data:
            data = data[os.write(1, data):]
    except OSError as error:
        raise Wrong("cannot write: %s" % error.strerror) from None


def keep(text, path):
    """Writes a text to a file."""
    try:
        with open(path, "wb") as file:
            file.write(text.encode())
    except OSError as error:
        raise Wrong("cannot write %s: %s" % (path, error.strerror)) from None


def shown(word):
    """A word as a message shows it."""
    return ascii(word if len(word) <= 40 else word[:40] + "..")


def run(main, usage, counts, *options):
    """Calls main with the command's files, as many as counts has, and with its options. The status is 1 where something cannot be
    used, and 2 where the command itself is wrong."""
    words = sys.argv[1:]
    files = [word for word in words if word not in options]
    try:
        if "--help" in words or "-h" in words:
            write(usage.encode())
        elif len(files) not in counts or any(word.startswith("-") for word in files):
            say(usage, end="")
            sys.exit(2)
        else:
            main(*files, **{word[2:]: True for word in words if word in options})
    except Wrong as wrong:
        say("%s: %s" % (os.path.basename(sys.argv[0]), wrong))
        sys.exit(1)
    except KeyboardInterrupt:
        sys.exit(130)
