"""A server whose database fails."""

import subprocess
import urllib.error
import urllib.request
from collections.abc import Sequence

from checks.commands import Commands, within
from checks.databases.spoilt import LARGE
from checks.running import PATIENCE, limited
from checks.serving import free_port

SECONDS = 20


def serve_three(case: Commands, port: int, closed: Sequence[int] = ()) -> str:
    """What a server of three connections replies whose files may not grow, to each of which the
    large submission is posted."""
    limit, close = within("-f", 500), limited(closed=closed)

    def prepare() -> None:
        limit()
        close()

    with open(case.folder / "reported", "wb") as reported:
        process = subprocess.Popen(
            [case.program, "serve", "s.toml", "--port", str(port), "--count", "3"],
            cwd=case.folder,
            stdin=subprocess.DEVNULL,
            stdout=subprocess.PIPE,
            stderr=reported,
            preexec_fn=prepare,
        )
    first, replies = process.stdout.readline(), []
    for _ in range(3):
        try:
            reply = urllib.request.urlopen(f"http://127.0.0.1:{port}/submissions", LARGE.encode())
        except urllib.error.HTTPError as error:
            reply = error
        replies.append(reply.read().decode())
    rest = process.communicate(timeout=PATIENCE)[0]
    case.ended(process.returncode, (first + rest).decode(), case.read("reported"))
    return "".join(replies)


def test_a_server_whose_database_fails_says_so_to_people_alone(case: Commands) -> None:
    """A registry that is served, and whose database may not grow at some time: also by a server
    that was started without standard input and standard error, whose numbers no file and no
    connection takes, so that what is for people goes to no client."""
    case.write("large.rpsl", LARGE)
    case.fresh("served.db")
    case.run("init", "s.toml")
    port = free_port()
    replies = serve_three(case, port)
    case.gives(
        "a registry that is served and whose database fails",
        0,
        (
            "irrdesk: served.db: the database failed, and each request is refused until the server"
            " is started again: the disk cannot be read or written: look at its health, and keep a"
            " copy of the database"
        ),
        f"listening on 127.0.0.1:{port}\nserved 3, failed 0",
    )
    case.fresh("served.db")
    case.run("init", "s.toml")
    again = serve_three(case, port, closed=(0, 2))
    case.gives(
        "the same without standard input and standard error",
        0,
        "",
        f"listening on 127.0.0.1:{port}\nserved 3, failed 0",
    )
    case.check(
        "its clients are answered as before", ": refused E91\n" in again and again == replies
    )
    case.run("serve", "s.toml", "--port", str(port), "--count", "1", closed=(1,))
    case.gives(
        "a server without standard output",
        5,
        "irrdesk: standard output: the write failed: it is closed: leave it open (system error 9)",
    )
    case.settings("irr.db")
