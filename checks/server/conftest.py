"""The cases of a module of peers: each in a thread of its own, because most of them wait."""

import concurrent.futures
import os
import shutil
from collections.abc import Callable, Iterator
from concurrent.futures._base import Future
from typing import Any

import pytest

from checks.running import Failure, Trial, write_settings
from checks.server.peers import INETNUM, run


def make_registry(program: str, folder: str, submission: str) -> None:
    os.mkdir(folder)
    write_settings(folder)
    with open(os.path.join(folder, "first.rpsl"), "w", encoding="ascii") as out:
        out.write("password: bc\n\n" + submission)
    for words in [["init", "s.toml"], ["submit", "s.toml", "first.rpsl"]]:
        status, printed, reported = run(program, folder, *words)
        if status != 0:
            raise Failure(f"{' '.join(words)} ended with {status}: {reported}{printed[-300:]}")


@pytest.fixture(scope="module")
def running(
    request: pytest.FixtureRequest, trial: Trial
) -> Iterator[dict[Callable[..., Any], Future[Any]]]:
    """What became of each case that was chosen, once it is done: all of them run at once."""
    missing = [command for command in ("whois", "curl") if shutil.which(command) is None]
    if missing:
        pytest.skip(f"{' and '.join(missing)} is not here")
    large = [INETNUM.format(f"10.{n}.0.0/16") + "descr: " + "x" * 60_000 + "\n" for n in range(200)]
    stores = {
        "small": INETNUM.format("10.0.0.0/8"),
        "medium": "\n".join(large[:64]),
        "large": "\n".join(large),
    }
    chosen: list[Any] = [
        item.callspec.params["check"]
        for item in request.session.items
        if isinstance(item, pytest.Function) and item.module is request.module
    ]
    for store in {store for store, _ in chosen}:
        make_registry(trial.program, os.path.join(trial.work, store), stores[store])
    with concurrent.futures.ThreadPoolExecutor(max_workers=len(chosen)) as pool:
        yield {
            function: pool.submit(
                function,
                trial.program,
                shutil.copytree(
                    os.path.join(trial.work, store), trial.place(f"of-{number}"), dirs_exist_ok=True
                ),
            )
            for number, (store, function) in enumerate(chosen)
        }
