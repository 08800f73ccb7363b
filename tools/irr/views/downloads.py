"""Files of others, fetched from their addresses or copied from a path, within bounds."""
import contextlib
import http.client
import json
import os
import time
import urllib.error
import urllib.request
from email.message import Message
from email.utils import parsedate_to_datetime
from pathlib import Path
from typing import Any, BinaryIO, Iterator

from irr.errors import Failure, system_words
from irr.registry.connection import whole
from irr.rpsl import keys
from irr.system import files
from irr.views.settings import is_address, is_safe

# Seconds for a piece of a file, and for all of it; the most bytes of one.
WAITING, LASTS, MOST = 120, 3_600, 1 << 32
CHUNK = 1 << 20
# The field that asks for what has another tag; after how many seconds a date tells files apart.
MATCH, SETTLED = "If-None-Match", 60


class Unchanged(Exception):
    """A file is as it was."""


class Gone(Failure):
    """A file is not there."""


class Redirects(urllib.request.HTTPRedirectHandler):
    """Follows no redirection to what can be changed on the way."""

    def __init__(self, is_plain: bool) -> None:
        self.is_plain = is_plain

    def redirect_request(
        self, req: Any, fp: Any, code: Any, msg: Any, headers: Any, url: str
    ) -> Any:
        if not self.is_plain and not is_safe(url):
            raise Failure(req.full_url, f"it leads to {url}, which can be changed on the way")
        return super().redirect_request(req, fp, code, msg, headers, url)


@contextlib.contextmanager
def opened(url: str, is_plain: bool, fields: dict[str, str] | None = None) -> Iterator[Any]:
    """The reply of an address; a Failure in words."""
    request = urllib.request.Request(url, headers={"User-Agent": "irr", **(fields or {})})
    try:
        secure = urllib.request.HTTPSHandler(context=whole())
        opener = urllib.request.build_opener(Redirects(is_plain), secure)
        with opener.open(request, timeout=WAITING) as reply:
            yield reply
    except urllib.error.HTTPError as error:
        # Without a condition it is a fault as any other status.
        if error.code == 304 and fields:
            raise Unchanged from None
        kind = Gone if error.code in (404, 410) else Failure
        raise kind(url, f"status {error.code}; correct the address, or ask later") from None
    except urllib.error.URLError as error:
        why = error.reason
        words = system_words(why) if isinstance(why, OSError) else str(why)
        raise Failure(url, f"it cannot be fetched: {words}") from None
    except (OSError, http.client.HTTPException) as error:
        raise Failure(url, f"it cannot be fetched: {str(error) or type(error).__name__}") from None


def taken(place: str, is_plain: bool, stamp: str, part: Path, most: int = MOST) -> str:
    """Takes a file of an address or a path, and gives what tells it from a later one; Unchanged if
    it is as it was, Gone if it is not there."""
    if is_address(place):
        return fetched(place, is_plain, stamp, part, most)
    if not os.path.exists(place):
        raise Gone(place, "it is not there; correct the path")
    return copied(place, stamp, part, most)


def fetched(url: str, is_plain: bool, stamp: str, part: Path, most: int) -> str:
    fields = dict(json.loads(stamp)) if stamp else {}
    with opened(url, is_plain, {name: fields[name] for name in fields if name == MATCH}) as reply:
        found = dated(reply.headers)
        if found and found == fields:
            raise Unchanged
        length = keys.read_number(reply.headers.get("Content-Length", ""), 0, 1 << 62)
        with open(part, "wb") as out:
            size = written(reply, out, url, most)
        if length is not None and size != length:
            raise Failure(url, f"it was cut off after {size:,} of {length:,} bytes")
        tag = reply.headers.get("ETag")
    found = {MATCH: tag} if tag else found
    return json.dumps(found) if found else ""


def dated(head: Message) -> dict[str, str]:
    """What tells a file from another one where it has no tag: its date and its size. Servers hold
    back what is not newer than a date that is asked for, so it is compared here. One of a moment
    ago may be followed by another of the same date (RFC 9110, 8.8.2.2)."""
    found = {name: head.get(name, "") for name in ("Last-Modified", "Content-Length")}
    try:
        made, now = (
            parsedate_to_datetime(head.get(name, "")) for name in ("Last-Modified", "Date")
        )
        is_settled = (now - made).total_seconds() >= SETTLED
    except (TypeError, ValueError, OverflowError):
        return {}
    return found if is_settled and not head.get("ETag") else {}


def written(source: BinaryIO, out: BinaryIO, name: str, most: int) -> int:
    size, begun = 0, time.monotonic()
    while piece := source.read(CHUNK):
        size += len(piece)
        if size > most:
            raise Failure(name, f"it has over {most >> 20:,} MiB; give another file")
        if time.monotonic() > begun + LASTS:
            raise Failure(name, f"it did not end within {LASTS:,} seconds; it is asked again")
        out.write(piece)
    out.flush()
    # What its state says of it is on the disk later.
    os.fsync(out.fileno())
    return size


def copied(path: str, stamp: str, part: Path, most: int) -> str:
    with files.opened(path) as file:
        found = os.fstat(file.fileno())
        # The last one is no time that a copy may keep.
        times = [found.st_mtime_ns, found.st_ctime_ns]
        new = json.dumps([found.st_size, found.st_ino, *times])
        if new == stamp:
            raise Unchanged
        with open(part, "wb") as out:
            written(file, out, path, most)
        after = os.fstat(file.fileno())
        if (after.st_size, after.st_mtime_ns) != (found.st_size, found.st_mtime_ns):
            raise Failure(path, "it changed while it was read; it is asked again")
    return new
