"""The arguments of the scripts here. A usage line names the command as it was called; what is wrong is told in one line, with
status 2."""
import sys


def fail(text):
    sys.stderr.write(text + "\n")
    sys.exit(2)


def arguments(words, least, most):
    """The arguments, from least to most of them, which `words` names. --help alone prints the usage line."""
    line = f"usage: {sys.argv[0]} {words}".rstrip()
    given = sys.argv[1:]
    if given == ["--help"]:
        print(line)
        sys.exit()
    if not least <= len(given) <= most or any(word.startswith("-") for word in given):
        fail(line)
    return given


def whole(name, text):
    """The whole number that an argument is, 0 or more."""
    if not (text.isascii() and text.isdigit()):
        fail(f"{sys.argv[0]}: {name} is a whole number, 0 or more, and not '{text}'")
    return int(text)
