"""How the scripts of examples read their words: a wrong word ends one with one line and status 2."""
import argparse
import os
import sys


class Words(argparse.ArgumentParser):
    """A reader of words that says in one line what is wrong with them. Its help is the script's own docstring."""

    def __init__(self, name, text, **more):
        super().__init__(prog=name, description=text, formatter_class=argparse.RawDescriptionHelpFormatter, allow_abbrev=False, **more)

    def error(self, message):
        self.exit(2, f"{self.prog}: {message}\n")


def refuse(text, name=None):
    """Ends the script with one line that begins with its name, and status 2."""
    print(f"{name or os.path.basename(sys.argv[0])}: {text}", file=sys.stderr)
    sys.exit(2)


def whole(least, most):
    """A reader of a whole number in decimal digits within these."""

    def read(word):
        if not (word.isascii() and word.isdigit() and least <= int(word) <= most):
            raise argparse.ArgumentTypeError(f"{word!r} is no number from {least} to {most}")
        return int(word)

    return read


def ended(main):
    """Runs a script, and ends it with its status, also where who reads has enough, or Ctrl-C was pressed."""
    try:
        status = main()
        sys.stdout.flush()
    except BrokenPipeError:
        os.dup2(os.open(os.devnull, os.O_WRONLY), sys.stdout.fileno())
        status = 0
    except KeyboardInterrupt:
        print(f"{os.path.basename(sys.argv[0])}: interrupted", file=sys.stderr)
        status = 130
    sys.exit(status)
