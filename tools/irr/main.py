"""The command line of `irr`: finds the command in the table, reads its words, and turns what ends
it into a line and a status."""
import argparse
import importlib
import io
import os
import signal
import sys
from typing import Any, NoReturn

from irr import VERSION
from irr.commands import BY_NAME, GROUPS, TABLE, Command
from irr.errors import ARGUMENTS, DONE, UNREAD, Failure, Reading, system_words, unread
from irr.terminal import texts


class Helped(Exception):
    """The help was asked for, and is printed."""


class Parser(argparse.ArgumentParser):
    """A parser whose faults are `Failure`s, so that they end as one line like any other, also where
    its help can't be written."""

    def error(self, message: str) -> NoReturn:
        raise Failure("", f"{message}; see `{self.prog} --help`", ARGUMENTS)

    def print_help(self, file: Any = None) -> None:
        print(self.format_help(), end="", file=file)

    def exit(self, status: int = 0, message: str | None = None) -> NoReturn:
        raise Helped


def parser_of(command: Command) -> Parser:
    """The parser of a command's words, which knows the function that does it."""
    module = importlib.import_module(f"irr.commands.{command.module}")
    epilog = "Examples:\n" + "".join(
        f"  {line}\n" if line else "\n" for line in module.EXAMPLES.strip("\n").split("\n")
    )
    parser = Parser(
        prog=f"irr {command.name}",
        description=command.summary[0].upper() + command.summary[1:] + ".",
        epilog=epilog,
        formatter_class=argparse.RawDescriptionHelpFormatter,
        allow_abbrev=False,
    )
    module.arguments(parser)
    parser.set_defaults(run=module.run)
    return parser


def overview() -> str:
    """The help of `irr` itself."""
    lines = [
        "usage: irr COMMAND [WORD ...]",
        "",
        "Query, submit to and maintain a registry that irrdesk serves.",
    ]
    width = max(len(command.name) for command in TABLE)
    for group in GROUPS:
        of_group = [command for command in TABLE if command.group == group]
        if of_group:
            lines += [
                "",
                f"{group}:",
                *(f"  {command.name:{width}}  {command.summary}" for command in of_group),
            ]
    lines += [
        "",
        "irr COMMAND --help    its arguments, and examples",
        "IRR_SERVER            the registry's address, by default http://127.0.0.1:4343",
        "",
    ]
    return "\n".join(lines)


def find(name: str) -> Command:
    """The command of a name."""
    if name in BY_NAME:
        return BY_NAME[name]
    import difflib

    near = difflib.get_close_matches(name, BY_NAME, 1)
    raise Failure(
        name,
        "there is no such command; "
        + (f"did you mean `irr {near[0]}`?" if near else "see `irr --help`"),
        ARGUMENTS,
    )


def do(words: list[str]) -> int:
    """Does what the words say, and gives the status."""
    if words[:1] == ["help"]:
        if len(words) > 2:
            raise Failure(
                "help", "it takes one command at most; write `irr help COMMAND`", ARGUMENTS
            )
        words = (
            ["--help"] if words[1:] in ([], ["help"], ["-h"], ["--help"]) else [words[1], "--help"]
        )
    if not words or words in (["-h"], ["--help"]):
        print(overview(), end="")
        return DONE if words else ARGUMENTS
    if words == ["--version"]:
        print(f"irr {VERSION}")
        return DONE
    if words[0] in ("-h", "--help", "--version"):
        raise Failure(
            words[0],
            "nothing goes with it; write `irr COMMAND --help` for the words of a command",
            ARGUMENTS,
        )
    try:
        with Reading("an argument"):
            options = parser_of(find(words[0])).parse_args(words[1:])
    except Helped:
        return DONE
    status: int = options.run(options)
    return status


def leave(number: int, _: object) -> NoReturn:
    """Ends the process by a signal, through all that tidies up."""
    sys.exit(128 + number)


def end_by(number: int) -> NoReturn:
    """Ends the process as the signal would have ended it, now that all is tidied up."""
    signal.signal(number, signal.SIG_DFL)
    os.kill(os.getpid(), number)
    sys.exit(128 + number)


def close_output() -> None:
    """Lets nothing more be written at the end, where nobody reads it or it can't be written."""
    os.dup2(os.open(os.devnull, os.O_WRONLY), sys.stdout.fileno())


def end_output() -> None:
    """Writes what is left for standard output where something else ended the command, whose line
    was reported."""
    try:
        sys.stdout.flush()
    except OSError:
        close_output()


def tell(lines: list[str], words: list[str]) -> None:
    """Lines of a command, on standard error."""
    name = words[0] if words and words[0] in BY_NAME else ""
    for line in lines:
        texts.note(f"irr {name}: {line}" if name else f"irr: {line}")


def report(failure: Failure, words: list[str]) -> None:
    """The one line of a failure, and what the command has to say besides."""
    tell([str(failure), *notes(failure)], words)


def notes(error: BaseException) -> list[str]:
    """What a command has to say besides of what ends it."""
    return getattr(error, "__notes__", [])


def main(words: list[str] | None = None) -> int:
    """Runs `irr` with these words, or those of the command line."""
    words = sys.argv[1:] if words is None else words
    for number, tidied in (
        (signal.SIGTERM, leave),
        (signal.SIGHUP, leave),
        (signal.SIGINT, signal.default_int_handler),
    ):
        # A command tidies up before it ends: it may have files that are nobody else's to read. What
        # nohup ignores stays so.
        if signal.getsignal(number) == signal.SIG_DFL:
            signal.signal(number, tidied)
    if sys.stdout is None:
        report(Failure("standard output", "it is closed; give the command one"), words)
        return Failure("", "").status
    for stream in sys.stdout, sys.stderr:
        # A terminal that lacks a letter gets its number.
        if isinstance(stream, io.TextIOWrapper):
            stream.reconfigure(errors="backslashreplace")
    try:
        status = do(words)
        sys.stdout.flush()
        return status
    except Failure as failure:
        report(failure, words)
        end_output()
        return failure.status
    except BrokenPipeError as error:
        close_output()
        for note in notes(error):
            report(Failure("standard output", f"nobody reads it; {note}"), words)
        end_by(signal.SIGPIPE)
    except KeyboardInterrupt as error:
        tell(notes(error), words)
        end_by(signal.SIGINT)
    except SystemExit as error:
        tell(notes(error), words)
        raise
    except OSError as error:
        is_file = error.filename is not None
        advice = [
            "look at it, or give another one" if is_file else "look where it goes to",
            *notes(error),
        ]
        fault = Failure(
            str(error.filename) if is_file else "standard output",
            "; ".join([system_words(error), *advice]),
        )
        close_output()
        report(fault, words)
        return fault.status
    except UNREAD as error:
        fault = unread(error)
        report(fault, words)
        end_output()
        return fault.status
    except MemoryError:
        report(Failure("", "out of memory; give the machine more, or take a smaller file"), words)
        return Failure("", "").status
