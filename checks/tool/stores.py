"""Folders with settings and a database for the modules of stores, and what they run."""

import contextlib
import os
import resource
import tempfile
import unittest
from collections.abc import Iterator
from pathlib import Path
from unittest import mock

from irr.local.databases import Settings


AUTH = "SHA256-PW a:" + "0" * 64
TEXT = f'source = "TEST"\nroot = "ROOT-MNT"\nauth = "{AUTH}"\nlimit = 10\nstore = "irr.db"\n'


@contextlib.contextmanager
def program(words: str) -> Iterator[None]:
    """A program in the place of irrdesk, which is these words of the shell."""
    with tempfile.TemporaryDirectory() as folder:
        path = Path(folder) / "irrdesk"
        path.write_text(f"#!/bin/sh\n{words}\n")
        path.chmod(0o755)
        with mock.patch.dict(os.environ, {"IRRDESK": str(path)}):
            yield


@contextlib.contextmanager
def limited(most: int) -> Iterator[None]:
    """Lets no file grow above so many bytes."""
    was = resource.getrlimit(resource.RLIMIT_FSIZE)
    resource.setrlimit(resource.RLIMIT_FSIZE, (most, was[1]))
    try:
        yield
    finally:
        resource.setrlimit(resource.RLIMIT_FSIZE, was)


class Folder(unittest.TestCase):
    def setUp(self) -> None:
        self.temporary = tempfile.TemporaryDirectory()
        self.folder = Path(self.temporary.name).resolve()

    def tearDown(self) -> None:
        self.temporary.cleanup()

    def file(self, name: str, text: bytes) -> Path:
        path = self.folder / name
        path.write_bytes(text)
        return path

    def settings(self) -> Settings:
        return Settings(
            self.folder / "irr.toml", "TEST", "ROOT-MNT", AUTH, 10, self.file("irr.db", b"rows")
        )
