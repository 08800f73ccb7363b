"""The registry's server over HTTP: `GET /query/..`, `POST /submissions` and `GET /dump`."""
import argparse
import contextlib
import http.client
import json
import os
import re
import socket
import ssl
import time
from typing import Any, Iterator
from urllib.parse import quote, urlsplit

from irr.errors import ARGUMENTS, Failure, reading, system_words
from irr.registry import answers, queries, replies
from irr.registry.connection import CONNECTING, persistently, whole
from irr.registry.replies import Beyond, Bounds, Reply
from irr.rpsl import keys
from irr.terminal import texts

DEFAULT = "http://127.0.0.1:4343"
# Seconds until a report is looked at again, if fewer bytes of it than these had come.
GATHERING, GATHERED = 0.02, 1 << 13
# Seconds for which a submission waits in all, each time that the server is too busy for it.
BUSY = 600
# The longest time after which it is told to ask again.
DAY = 86_400
LOOPBACK = ("localhost", "::1")
PATH, BLANK = re.compile("[!-~]*"), re.compile(r"\s")
# How often an answer is asked for until two in a row are alike.
TURNS = 4
# What to do where a submission may have been taken.
LOOK = "look by `irr diff FILE`, and send the whole text again: what is registered is `unchanged`"
SENT = f"the text was sent, and items of it may be registered: {LOOK}"
# Statuses of a proxy that had the request, and does not know what came of it.
UNSURE = (500, 502, 504)
CUT = "the connection was cut off; ask again"
BAD_LENGTH = "the answer is not as long as the server says"
NO_ADDRESS = "this is not an address; write it as https://HOST or http://HOST:PORT"
NETRC = "write lines `machine HOST login USER password PASSWORD`"
REMEDIES = {
    400: "the server does not take the request; is it https that it wants?",
    401: "the server asks for a user and a password; ask the registry's operator for them, or to "
    "allow your address; write `machine HOST login USER password PASSWORD` into ~/.netrc",
    403: "the server does not allow this from here; ask the registry's operator",
    404: "there is no registry at this address; correct it",
    405: "there is no registry at this address; correct it",
    408: "the server waited too long for the request; send it again",
    413: "the server takes no text of this length; ask the registry's operator",
    429: "the server was asked too often; ask again later",
    500: "the proxy in front of the registry has failed; tell its operator",
    502: "the proxy does not reach the registry; ask again later, or tell its operator",
    503: "the registry is stopped, its database has failed, its memory ran out, or its proxy is "
    "busy; "
    "ask again later, or tell its operator",
    504: "the proxy gave up waiting for the registry; ask again later",
}


class TooLarge(Failure):
    """The server takes no submission of this length (413); nothing of it was read."""


class Busy(Failure):
    """The server asks to come again after some seconds (429 or 503 with Retry-After); nothing was
    done."""

    def __init__(self, thing: str, what: str, seconds: int) -> None:
        super().__init__(
            thing, what.replace("again later", f"again after {texts.counted(seconds, 'second')}")
        )
        self.seconds = seconds


class Absent(Failure):
    """No server listens at the address."""


class Lost(Failure):
    """The request was sent, and what came of it is not known."""


def add_options(parser: argparse.ArgumentParser) -> None:
    """The options of each command that asks a server: `options.server` and `options.plain`."""
    parser.add_argument(
        "-s",
        "--server",
        metavar="URL",
        help=f"use the registry at this address, by default that of IRR_SERVER, or {DEFAULT}",
    )
    parser.add_argument(
        "--plain", action="store_true", help="allow http to another machine, which is not encrypted"
    )


class Server:
    """A registry at an address. Each call is a connection of its own; what goes wrong is a Failure
    in words."""

    # Seconds for which a refused connection is tried again, and the most bytes that an answer may
    # have.
    patience: float = 0
    most: int | None = None
    is_excerpt = False

    def __init__(self, url: str, plain: bool = False) -> None:
        try:
            parts = urlsplit(url)
            self.host, port = parts.hostname or "", parts.port
            # What the system is asked for: a name with an empty part, or a letter that no name has,
            # is none.
            is_name = PATH.fullmatch(self.host.encode("idna").decode("ascii"))
        except ValueError:
            raise Failure(shown_url(url), NO_ADDRESS, ARGUMENTS) from None
        # What is taken out of an address to make parts of it would still be where it is shown.
        is_bare = not BLANK.search(url) and not texts.CONTROL.search(url)
        is_good = self.host and is_name and is_bare and PATH.fullmatch(parts.path) and port != 0
        if parts.scheme not in ("http", "https") or not is_good or parts.query or parts.fragment:
            raise Failure(shown_url(url), NO_ADDRESS, ARGUMENTS)
        if "@" in parts.netloc:
            raise Failure(
                shown_url(url),
                "a password does not belong into an address; write it into ~/.netrc",
                ARGUMENTS,
            )
        self.url, self.scheme = url.rstrip("/"), parts.scheme
        self.port = port or (443 if self.scheme == "https" else 80)
        self.path = parts.path.rstrip("/")
        self.is_private = (
            self.scheme == "https"
            or self.host in LOOPBACK
            or (keys.read_address(self.host) or 0) >> 24 == 127
        )
        if not self.is_private and not plain:
            raise Failure(
                shown_url(url),
                "http to another machine is not encrypted; take https, or add --plain",
                ARGUMENTS,
            )

    @classmethod
    def from_options(cls, url: str | None, plain: bool = False) -> "Server":
        """The server of `-s URL`, else of IRR_SERVER, else the default one. An empty address is
        that of a variable that a script lacks."""
        given = os.environ.get("IRR_SERVER", DEFAULT) if url is None else url
        if not given:
            raise Failure(
                "IRR_SERVER" if url is None else "-s",
                "the address is empty; give one, or leave this out",
                ARGUMENTS,
            )
        return cls(given, plain)

    @reading("the server's answer")
    def query(self, *words: str | bytes) -> answers.Answer:
        """The answer to a query, whose words are joined by one space."""
        text, pieces = self.answering(*words)
        return answers.Answer(b"".join(pieces), text, self.url)

    @reading("the server's answer")
    def query_first(self, most: int, *words: str | bytes) -> answers.Answer:
        """The same of a query for objects, of which no more than the first ones are read."""
        text, pieces = self.answering(*words)
        return answers.Answer(answers.first_objects(pieces, most), text, self.url)

    def answering(self, *words: str | bytes) -> tuple[bytes, Iterator[bytes]]:
        """A query, and its answer in pieces as it comes."""
        text = b" ".join(os.fsencode(word) if isinstance(word, str) else word for word in words)
        if not text:
            raise Failure("", "the query is empty; see `irr query --help`", ARGUMENTS)
        # Of a longer one this much is enough for the registry to say so; all of it would not fit
        # into a head.
        bounds = replies.ANSWER._replace(most=self.most or replies.ANSWER.most)
        reply = self.ask("GET", "/query/" + quote(text[: queries.LONGEST + 1], safe=""), bounds)
        return text, self.body_of(reply)

    @reading("the server's answer")
    def query_surely(self, *words: str | bytes) -> answers.Answer:
        """The answer to a query, asked for until two in a row are alike, and no other one that came
        begins with it: an answer has no end mark, so one that was cut differs from the next one."""
        seen = [self.query(*words)]
        for _ in range(TURNS - 1):
            last, new = seen[-1], self.query(*words)
            if new.text == last.text and not any(new.is_cut_of(other) for other in seen):
                return new
            seen.append(new)
        raise Failure(
            self.url,
            "two answers differ: one was cut off, or the registry has changed; ask again",
        )

    @reading("the server's answer")
    def view(self) -> dict[str, Any]:
        """What the view is made of that a door serves at this address, below `/views/`; nothing at
        another one."""
        if not self.path.rpartition("/")[0].endswith("/views"):
            return {}
        reply = self.ask("GET", "/state", replies.ANSWER._replace(most=1 << 20))
        found = json.loads(b"".join(self.body_of(reply)))
        if not isinstance(found, dict) or not isinstance(found.get("sources"), list):
            raise Failure(self.url, "this is not a view; correct the address")
        return found

    @reading("the server's answer")
    def submit(self, text: bytes) -> Iterator[bytes]:
        """The report of a submission that the server takes at once, in pieces as it comes. What
        came of it before the connection failed is its report too, which is then not whole. A
        registry judges a text that came whole, also if nobody waits for the report."""
        try:
            reply = self.ask_patiently("POST", "/submissions", replies.REPORT, text)
        except Lost as lost:
            raise Lost(lost.thing, f"{lost.what.partition(';')[0]}; {SENT}") from None
        with contextlib.suppress(Failure):
            seen = 0
            for piece in self.body_of(reply):
                yield piece
                # The server sends a line as it decides an item: to wake up for each costs more than
                # all else. A piece may be a chunk of what came before.
                came = reply.bounded.count - seen
                if 0 < came < GATHERED:
                    time.sleep(GATHERING)
                seen += came

    @reading("the server's answer")
    def dump(self) -> Iterator[bytes]:
        """The public dump in pieces; a Failure after the last one if it is not whole."""
        return answers.whole_dump(self.body_of(self.ask("GET", "/dump", replies.DUMP)), self.url)

    @reading("the server's answer")
    def ask(self, method: str, path: str, bounds: Bounds, body: bytes | None = None) -> Reply:
        """The reply to a request, once its status is known to be 200."""
        fields = {"Connection": "close", "User-Agent": "irr"} | self.credentials()
        try:
            connection = self.connect(bounds)
        except OSError as error:
            kind = Absent if isinstance(error, ConnectionRefusedError) else Failure
            raise kind(self.url, self.trouble(error)) from None
        try:
            # A server that takes no body of this length may answer, and close, before all of it is
            # there.
            with contextlib.suppress(BrokenPipeError, ConnectionResetError):
                connection.request(method, self.path + path, body, fields)
            reply = self.reply_of(connection)
        except ssl.SSLError:
            # Both sides spoke TLS before.
            raise Lost(self.url, CUT) from None
        except OSError as error:
            raise Lost(self.url, self.trouble(error)) from None
        except Beyond as beyond:
            raise Lost(self.url, str(beyond)) from None
        except (http.client.HTTPException, ValueError):
            raise Lost(self.url, "the server does not speak HTTP; correct the address") from None
        if reply.status != 200:
            self.refuse(reply)
        if reply.headers.get_content_type() != "text/plain":
            reply.close()
            raise Failure(self.url, "the server is not a registry of irrdesk; correct the address")
        if not reply.has_good_length():
            reply.close()
            raise Lost(self.url, f"{BAD_LENGTH}; ask again, or tell its operator")
        return reply

    @reading("the server's answer")
    def ask_patiently(self, method: str, path: str, bounds: Bounds, body: bytes) -> Reply:
        """The same of a server that may ask to be asked again later."""
        end = time.monotonic() + BUSY
        while True:
            try:
                return self.ask(method, path, bounds, body)
            except Busy as busy:
                if time.monotonic() + busy.seconds > end:
                    raise
                texts.note(
                    f"irr: {busy.thing}: the server is busy; "
                    f"it is asked again after {texts.counted(busy.seconds, 'second')}"
                )
                time.sleep(busy.seconds)

    def connect(self, bounds: Bounds) -> http.client.HTTPConnection:
        """A connection that stands, whose reply has these bounds."""
        connection: http.client.HTTPConnection
        if self.scheme == "https":
            connection = http.client.HTTPSConnection(
                self.host, self.port, timeout=CONNECTING, context=whole()
            )
        else:
            connection = http.client.HTTPConnection(self.host, self.port, timeout=CONNECTING)
        persistently(connection.connect, self.patience)
        connection.sock.settimeout(replies.WAITING)
        connection.response_class = replies.within(bounds)
        return connection

    @reading("the server's answer")
    def reply_of(self, connection: http.client.HTTPConnection) -> Reply:
        """The head of a reply; a connection that gives none is closed."""
        try:
            # The class of replies was given to the connection.
            return connection.getresponse()  # type: ignore[return-value]  # see above
        except BaseException:
            connection.close()
            raise

    def credentials(self) -> dict[str, str]:
        """The field for the user and password that ~/.netrc (or the file of NETRC) has for the
        host, whatever its port. Letter case does not tell hosts apart (RFC 4343, 3). Those of
        `default` are for https alone: over http anybody could take the host's place."""
        given = os.environ.get("NETRC")
        path = given or os.path.expanduser("~/.netrc")
        if not given and not os.path.exists(path):
            return {}
        import base64
        import netrc
        import stat

        try:
            # The module looks who may read a file only where it is told no path.
            mode = os.stat(path).st_mode
            if not stat.S_ISREG(mode):
                raise OSError("not a file")
            if mode & 0o077:
                raise Failure(path, "others can read it; chmod 600 it")
            hosts = netrc.netrc(path).hosts
        except (netrc.NetrcParseError, UnicodeDecodeError):
            raise Failure(path, f"it cannot be read; {NETRC}") from None
        except OSError as error:
            remedy = "correct NETRC" if given else "look at it"
            raise Failure(path, f"it cannot be opened: {system_words(error)}; {remedy}") from None
        of_others = hosts.pop("default", None)
        found = {name.lower(): entry for name, entry in hosts.items()}.get(
            self.host, of_others if self.scheme == "https" else None
        )
        if not found:
            return {}
        user, _, password = found
        if not user or not password:
            raise Failure(path, f"what it has for {self.host} lacks a user or a password; {NETRC}")
        return {
            "Authorization": "Basic " + base64.b64encode(f"{user}:{password}".encode()).decode()
        }

    @reading("the server's answer")
    def body_of(self, reply: Reply) -> Iterator[bytes]:
        """The body of a reply in pieces; a Failure if the connection breaks, ends over TLS without
        a word, or gives fewer or more bytes than were announced."""
        with reply:
            try:
                while piece := reply.read1(1 << 16):
                    yield piece
                if reply.length:
                    raise http.client.IncompleteRead(b"", reply.length)
                if reply.length == 0 and reply.has_more():
                    raise Beyond(f"{BAD_LENGTH}; ask again, or tell its operator")
            except TimeoutError as error:
                raise Failure(self.url, self.trouble(error)) from None
            except Beyond as beyond:
                raise Failure(self.url, str(beyond)) from None
            except (OSError, http.client.HTTPException):
                raise Failure(self.url, "the answer was cut off; ask again") from None

    def refuse(self, reply: http.client.HTTPResponse) -> None:
        """Ends in words for a status other than 200."""
        status, place = reply.status, reply.headers.get("Location")
        reply.close()
        if status in (301, 302, 303, 307, 308) and place:
            raise Failure(
                self.url,
                f"the server is at {texts.shown_line(shown_url(place))}; take that address",
            )
        words = REMEDIES.get(status, "the server does not take the request; correct the address")
        seconds = seconds_of(reply.headers.get("Retry-After", "")) if status in (429, 503) else None
        if seconds is not None:
            raise Busy(self.url, f"status {status}: {words}", seconds)
        kind = TooLarge if status == 413 else Lost if status in UNSURE else Failure
        raise kind(self.url, f"status {status}: {words}")

    def trouble(self, error: OSError) -> str:
        """Why a connection failed, and what to do."""
        if isinstance(error, ConnectionRefusedError):
            return (
                "no server listens there; start `irrdesk serve` or `systemctl start irrdesk`, "
                "or give another address by -s URL or IRR_SERVER"
            )
        if isinstance(error, TimeoutError):
            return (
                "the server does not answer; ask again later, "
                "or give another address by -s URL or IRR_SERVER"
            )
        if isinstance(error, (ConnectionResetError, BrokenPipeError)):
            return CUT
        if isinstance(error, ssl.SSLCertVerificationError):
            return (
                f"its certificate is not good ({error.verify_message}); "
                "correct the address, or ask its operator"
            )
        if isinstance(error, ssl.SSLError):
            return "the server does not speak TLS; correct the address"
        if isinstance(error, socket.gaierror):
            return "the host is not known; correct the address"
        return f"{system_words(error)}; correct the address, or try again later"


def seconds_of(retry_after: str) -> int | None:
    """The seconds that the field asks to wait for, as a number or as a date (RFC 9110, 10.2.3), at
    least one; None for over a day."""
    seconds = keys.read_number(retry_after, 0, DAY)
    if seconds is None:
        from email.utils import parsedate_to_datetime

        try:
            seconds = round(parsedate_to_datetime(retry_after).timestamp() - time.time())
        except (ValueError, OverflowError, OSError):
            return None
    return max(1, seconds) if seconds <= DAY else None


def shown_url(url: str) -> str:
    """An address without a user and password in it, also where a slash is in the password."""
    scheme, mark, rest = url.partition("://")
    return (scheme + mark if mark else "") + (rest if mark else url).partition("?")[0].rpartition(
        "@"
    )[2]
