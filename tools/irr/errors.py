"""What ends a command: one line that names a thing, says what happened and what to do, and a
status."""

import contextlib
import functools
from collections.abc import Callable
from typing import Any, TypeVar, cast

Function = TypeVar("Function", bound=Callable[..., Any])
DONE, REFUSED, ARGUMENTS, SETTINGS, DATABASE, FAILED = range(6)


class Failure(Exception):
    """Ends a command with one line, `irr COMMAND: THING: what happened; what to do`, and a status:
    ARGUMENTS, SETTINGS, DATABASE, or FAILED for a file, a stream or a server, as `irrdesk` has
    them. The thing is a file, a server or an option, and may be left out; whatever is put into the
    line is escaped when it is printed."""

    def __init__(self, thing: str, what: str, status: int = FAILED) -> None:
        super().__init__(f"{thing}: {what}" if thing else what)
        self.thing, self.what, self.status = thing, what, status


class Unreadable(Exception):
    """What was given is not what is read here."""


# What may be raised where a text, an address or a number is not what was looked for. Its words may
# show what is nobody's business.
UNREAD = (Unreadable, ValueError, OverflowError, RecursionError, IndexError)


def system_words(error: OSError) -> str:
    """What the system says of a fault, without a path or number."""
    return (error.strerror or str(error) or type(error).__name__).lower()


class Reading(contextlib.ContextDecorator):
    """Names what a block or a function reads: what can't be read there, and is reported nowhere
    nearer, ends the command as this. Of blocks within one another the outermost names it."""

    def __init__(self, what: str) -> None:
        self.what = what

    def __enter__(self) -> "Reading":
        return self

    def __exit__(self, kind: object, error: BaseException | None, trace: object) -> None:
        if isinstance(error, UNREAD):
            setattr(error, "read_as", self.what)


def reading(what: str) -> Callable[[Function], Function]:
    """The same for a function, or for each step of a generator."""

    def named(function: Function) -> Function:
        # The flag of a generator, which the module `inspect` tells too, and takes long to load.
        if not function.__code__.co_flags & 0x20:
            return Reading(what)(function)

        @functools.wraps(function)
        def steps(*words: Any, **more: Any) -> Any:
            with Reading(what):
                return (yield from function(*words, **more))

        return cast(Function, steps)

    return named


def unread(error: BaseException) -> Failure:
    """What can't be read and is reported nowhere nearer."""
    what = getattr(error, "read_as", "an argument, a file or an answer")
    return Failure("", f"{what} can't be read ({type(error).__name__}); look at what was given")
