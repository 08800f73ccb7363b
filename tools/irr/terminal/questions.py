"""Questions at the terminal, each with what is taken where nothing is typed."""

import sys
from typing import Callable, TypeVar

from irr.errors import ARGUMENTS, Failure
from irr.terminal import texts

Answer = TypeVar("Answer")
WORDS = {"yes": True, "y": True, "no": False, "n": False}


def can_ask() -> bool:
    """Whether somebody is there who reads questions and types answers."""
    return texts.is_terminal(sys.stdin) and texts.is_terminal(sys.stdout)


def ask(
    question: str, default: str, read: Callable[[str], Answer], is_for_name: bool = False
) -> Answer:
    """The answer, as `read` takes it. What that refuses is reported, and asked for again; and so is
    a `yes` or `no` for a name, unless it was typed just before."""
    before = ""
    while True:
        try:
            shown = f"{question} [{default}]: " if default else f"{question}: "
            typed = input(texts.shown_line(shown))
        except (EOFError, UnicodeDecodeError):
            raise Failure("", "no answer was given; run it again", ARGUMENTS) from None
        typed = typed.strip()
        try:
            answer = read(typed or default)
        except Failure as failure:
            texts.note(f"  {failure}")
            continue
        if not is_for_name or typed.lower() not in WORDS or typed == before:
            return answer
        texts.note(f"  {typed}: this question asks for a name; type it again if it is the name")
        before = typed


def is_yes(text: str) -> bool:
    """What `yes` or `no` says."""
    if text.lower() not in WORDS:
        raise Failure(text or "nothing", "write yes or no", ARGUMENTS)
    return WORDS[text.lower()]


def agrees(question: str, default: bool) -> bool:
    return ask(question, "yes" if default else "no", is_yes)
