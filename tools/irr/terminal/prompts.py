"""Passwords that are asked for without echo, at the terminal and nowhere else."""
import argparse
import os

from irr.errors import ARGUMENTS, Failure
from irr.terminal import texts

# What NIST asks of a password that stands alone (SP 800-63B).
LEAST = 15
# What the help of each command says that makes a password.
WORTH = """
The registry keeps one SHA-256 hash of the salt and the password. Anybody who obtains it can try
billions of passwords a second. A random password of 96 bits withstands that; a short one does not.
"""


def add_short(parser: argparse.ArgumentParser) -> None:
    parser.add_argument(
        "--short",
        action="store_true",
        help=f"with --ask, accept a password of fewer than {LEAST} characters",
    )


def ask(prompt: str) -> str:
    """What is typed at the terminal, which does not show it."""
    import getpass

    prompt = texts.shown_line(prompt)
    try:
        os.close(os.open("/dev/tty", os.O_RDWR | os.O_NOCTTY))
    except OSError:
        raise Failure(
            "",
            (
                f"there is no terminal to ask for the {prompt.rstrip(': ')} at; put `password:`"
                " lines into a file of their own, which only you may read, and give it first"
            ),
            ARGUMENTS,
        ) from None
    try:
        return getpass.getpass(prompt)
    except EOFError:
        raise Failure("", "no password was given; try again", ARGUMENTS) from None
    except UnicodeDecodeError:
        raise Failure(
            "",
            (
                f"the {prompt.rstrip(': ')} is not text in the encoding of the locale; give the"
                " file that has it, or correct LC_ALL"
            ),
            ARGUMENTS,
        ) from None


def ask_new(prompt: str, is_short_meant: bool) -> str:
    """A new password, typed twice alike. One of fewer than LEAST characters has to be meant."""
    first = ask(f"{prompt}: ")
    if not first:
        raise Failure("", "no password was given; try again", ARGUMENTS)
    if ask(f"{prompt}, again: ") != first:
        raise Failure("", "the two passwords differ; try again", ARGUMENTS)
    if len(first) < LEAST and not is_short_meant:
        raise Failure(
            "",
            f"the password has fewer than {LEAST} characters, and who gets its hash finds it soon;"
            " leave out --ask for a random one, take a longer one, or add --short",
            ARGUMENTS,
        )
    return first
