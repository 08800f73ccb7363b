"""Registries of others, as they are handed out: files by HTTP, and changes by NRTM, version 3."""
import contextlib
import http.server
import re
import socketserver
import threading
from collections.abc import Sequence
from email.utils import formatdate, parsedate_to_datetime
from pathlib import Path
from typing import Any, Self

from irr.views import settings
from irr.views.view import View


def view_of(folder: Path, sources: str) -> View:
    """A view of these sources, in the words of its settings, in a folder."""
    (folder / "view.toml").write_text(f'name = "ALL"\nfolder = "{folder}/view"\n{sources}')
    return view_in(folder)


def view_in(folder: Path) -> View:
    """The view of a folder, as it is after a start."""
    return View(settings.read(str(folder / "view.toml")))


class Served:
    """A server that answers while a `with` block runs."""

    server: socketserver.BaseServer

    def __enter__(self) -> Self:
        threading.Thread(target=self.server.serve_forever, daemon=True).start()
        return self

    def __exit__(self, *_: object) -> None:
        self.server.shutdown()
        self.server.server_close()


class Files(Served):
    """Files at a port while a `with` block runs, each known by its path, with what tells it from a
    later one. A status in place of a text is what is answered."""

    def __init__(self) -> None:
        self.texts: dict[str, bytes | int] = {}
        self.asked: list[tuple[str, int]] = []
        self.is_cut = False
        # The dates of files that are told by these alone, in seconds since 1970.
        self.dates: dict[str, float] = {}
        files = self

        class Handler(http.server.BaseHTTPRequestHandler):
            def do_GET(self) -> None:
                found = files.texts.get(self.path, 404)
                status = found if isinstance(found, int) else 200
                text = b"" if isinstance(found, int) else found
                tag, date = f'"{hash(text)}"', files.dates.get(self.path)
                since: str = self.headers.get("If-Modified-Since") or ""
                is_same = self.headers.get("If-None-Match") == tag
                if date is not None:
                    # As Apache does: what is not newer is not sent.
                    is_same = since != "" and parsedate_to_datetime(since).timestamp() >= date
                if status == 200 and is_same:
                    status, text = 304, b""
                files.asked.append((self.path, status))
                self.send_response(status)
                self.send_header("Content-Length", str(len(text)))
                if date is None:
                    self.send_header("ETag", tag)
                else:
                    self.send_header("Last-Modified", formatdate(date, usegmt=True))
                self.end_headers()
                # Who knows by the head that it is as it was goes away.
                with contextlib.suppress(ConnectionError):
                    self.wfile.write(text[: len(text) // 2] if files.is_cut else text)

            def log_message(self, *_: Any) -> None:
                pass

        self.server = http.server.ThreadingHTTPServer(("127.0.0.1", 0), Handler)
        self.url = f"http://127.0.0.1:{self.server.server_address[1]}"


class Nrtm(Served):
    """The changes of a registry at a port while a `with` block runs, from a first serial on."""

    def __init__(self, name: str, first: int) -> None:
        self.name, self.first = name, first
        self.changes: list[tuple[str, str]] = []
        # How much of an answer is handed out; a part of what is asked for which there is none.
        self.most: int | None = None
        self.fails = ""
        # Whether it has the words of IRRd, version 4, where RIPE has others.
        self.is_irrd = False
        self.asked: list[str] = []
        nrtm = self

        class Handler(socketserver.StreamRequestHandler):
            def handle(self) -> None:
                line = self.rfile.readline().decode().strip()
                nrtm.asked.append(line)
                self.wfile.write(nrtm.answer(line).encode()[: nrtm.most])

        self.server = socketserver.ThreadingTCPServer(("127.0.0.1", 0), Handler)
        self.place = f"127.0.0.1:{self.server.server_address[1]}"

    @property
    def last(self) -> int:
        return self.first + len(self.changes) - 1

    def publish(self, changes: Sequence[tuple[str, str]]) -> None:
        self.changes += changes

    def shorten(self, first: int) -> None:
        """Keeps the changes from a serial on."""
        del self.changes[: first - self.first]
        self.first = first

    def forget(self) -> None:
        """Keeps no change of before."""
        self.shorten(self.last + 1)

    def answer(self, line: str) -> str:
        """What RIPE's server says, with a remark before it, or IRRd."""
        if self.fails and self.fails in line:
            return ""
        remark = "% The objects are in RPSL format.\n%\n\n"
        found = re.fullmatch(rf"-g {self.name}:3:([0-9]+)-(LAST|[0-9]+)", line)
        assert found, line
        begin, end = int(found[1]), self.last if found[2] == "LAST" else int(found[2])
        if self.is_irrd and not self.changes:
            return "%% ERROR: There are no journal entries for this source.\n\n"
        if begin == self.last + 1 and found[2] == "LAST":
            return remark + "% Warning: there are no newer updates available\n\n"
        if self.is_irrd and end < begin <= self.last:
            return "%% ERROR: Start of the serial range must be lower or equal to its end\n\n"
        if self.is_irrd and begin < self.first:
            return f"%% ERROR: Serials {begin} - {self.first} do not exist\n\n"
        if self.is_irrd and max(begin, end) > self.last:
            return f"%% ERROR: Serials {self.last} - {max(begin, end)} do not exist\n\n"
        if not self.first <= begin <= end <= self.last:
            return remark + f"%ERROR:401: invalid range: Not within {self.first}-{self.last}\n\n"
        parts = [f"%START Version: 3 {self.name} {begin}-{end}\n"]
        for serial in range(begin, end + 1):
            word, text = self.changes[serial - self.first]
            parts.append(f"\n{word} {serial}\n\n{text}")
        return remark + "".join(parts) + f"\n%END {self.name}\n\n"
