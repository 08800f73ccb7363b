"""`irr notify FOLDER`: mail to those who are concerned by what changed, and by what was refused."""

import argparse
import functools
import json
import os
import time
from pathlib import Path
from typing import Any

from irr.commands.history import DEFAULT
from irr.door import journal, logs
from irr.errors import ARGUMENTS, DONE, Failure, reading
from irr.local import notices
from irr.local.history import Repository, State, shown_time
from irr.local.serials import source_of
from irr.rpsl import keys
from irr.system import files, mail
from irr.terminal import texts

EXAMPLES = """
irr notify /var/lib/irrdesk-notify --from irr@example.net
irr notify /var/lib/irrdesk-notify --from irr@example.net --log /var/log/irrdesk-door/items.log
irr notify /var/lib/irrdesk-notify --from irr@example.net --dry-run

What changed in each state that `irr history` recorded is mailed once, one mail per address: to
`notify` of each object before and after the change, and to `mnt-nfy` of its maintainers. The first
run sends nothing. With --log or --journal, what was refused through the door is mailed to `upd-to`
of the maintainers.
"""
HOUR = 3_600
FOOT = (
    "\nNobody reads answers to this. The registry's operator sends it because of `notify`,"
    " `mnt-nfy`\nor `upd-to` with this address.\n"
)


def arguments(parser: argparse.ArgumentParser) -> None:
    parser.add_argument(
        "--from",
        dest="sender",
        metavar="ADDRESS",
        default=os.environ.get("IRR_MAIL_FROM") or "",
        help="send from this address, by default that of IRR_MAIL_FROM",
    )
    parser.add_argument(
        "--history",
        metavar="FOLDER",
        default=os.environ.get("IRR_HISTORY") or DEFAULT,
        help=f"read this folder of `irr history`, by default that of IRR_HISTORY, or {DEFAULT}",
    )
    parser.add_argument(
        "--log",
        metavar="FILE",
        help="also mail what was refused, from the file of the door's setting `log`",
    )
    parser.add_argument(
        "--journal",
        action="store_true",
        help="also mail what was refused, from the journal of irrdesk-door.service",
    )
    parser.add_argument(
        "--most",
        metavar="COUNT",
        type=keys.number,
        default=100,
        help="send at most this many mails an hour, by default 100; later runs send the rest",
    )
    parser.add_argument(
        "--sendmail",
        metavar="FILE",
        default=mail.SENDMAIL,
        help=f"hand mail to this program, by default {mail.SENDMAIL}",
    )
    parser.add_argument(
        "--dry-run", action="store_true", help="print the mails, send none, and note nothing"
    )
    parser.add_argument("folder", metavar="FOLDER", help="where to note what was sent")


def run(options: argparse.Namespace) -> int:
    if not mail.is_address(options.sender):
        raise Failure(
            options.sender or "--from",
            "give the address that sends, such as irr@example.net, by --from or IRR_MAIL_FROM",
            ARGUMENTS,
        )
    if options.log and options.journal:
        raise Failure("--journal", "it goes without --log; leave one of them out", ARGUMENTS)
    if options.most < 1:
        raise Failure("--most", "it takes a number from 1 on; correct it", ARGUMENTS)
    repository = Repository(Path(options.history))
    states = repository.states() if repository.is_there else []
    if not states:
        raise Failure(
            options.history, "there is no history; let `irr history` fetch a state", ARGUMENTS
        )
    folder = files.folder(options.folder, 0o700)
    with files.locked(folder):
        sender = Sender(folder / "sent.json", repository, states, options)
        if sender.begin():
            sender.mail_changes()
            if options.log or options.journal:
                sender.mail_refusals(options.log)
    return DONE


class Sender:
    """What was sent: noted after each mail, so that a stop repeats one at most."""

    def __init__(
        self,
        path: Path,
        repository: Repository,
        states: list[State],
        options: argparse.Namespace,
    ) -> None:
        self.path, self.repository, self.states = path, repository, states
        self.options, self.is_dry = options, options.dry_run
        self.post = mail.Post(options.sender, options.sendmail)
        self.now = time.time()
        self.noted = read(path)
        # The last state that was told, and who was told of the next one.
        self.commit: str = self.noted.get("commit") or ""
        self.mailed: list[str] = self.noted.get("told") or []
        # From which time to which the log is told, if a run could not end that, and to whom it was.
        self.since: float = self.noted.get("since") or self.now
        self.until: float = self.noted.get("until") or 0.0
        self.refused: list[str] = self.noted.get("refused") or []
        self.times = [
            one for one in self.noted.get("times") or [] if self.now - HOUR < one <= self.now
        ]

    def note(self) -> None:
        if self.is_dry:
            return
        noted = {
            "commit": self.commit,
            "told": self.mailed,
            "since": self.since,
            "until": self.until,
            "refused": self.refused,
            "times": self.times,
        }
        files.put(self.path, json.dumps(noted).encode() + b"\n", files.PRIVATE)

    @functools.cached_property
    def source(self) -> str:
        """The registry's name."""
        return source_of(next(self.repository.objects(self.states[0]))[:-1], self.repository)

    def begin(self) -> bool:
        """Whether a state was told that the history has: else the last one counts as told."""
        if any(one.commit == self.commit for one in self.states):
            return True
        if self.commit:
            texts.note(
                f"irr notify: {self.options.history}: it is another history than before; what"
                " changed until now is not mailed"
            )
        self.commit, self.mailed = self.states[0].commit, []
        self.note()
        return False

    def mail_changes(self) -> None:
        """Tells each state after the last one that was told, the oldest first."""
        states = self.states
        place = next(place for place, one in enumerate(states) if one.commit == self.commit)
        for before, state in zip(states[place:0:-1], reversed(states[:place])):
            mails = notices.of_change(self.repository, before, state)
            for address, found in mails.items():
                if address in self.mailed:
                    continue
                subject = (
                    found[0].line
                    if len(found) == 1
                    else f"{texts.counted(len(found), 'object')} changed"
                )
                seen = shown_time(state.time)
                head = f"The registry {self.source} has changed, as seen at {seen}.\n\n"
                if not self.send(
                    address, f"[{self.source}] {subject}", head + notices.text_of(found)
                ):
                    return
                self.mailed.append(address)
                self.note()
            self.commit, self.mailed = state.commit, []
            self.note()

    def mail_refusals(self, path: str | None) -> None:
        """Tells what was refused since the last run."""
        self.until = self.until or self.now
        # A door that never was started has no log.
        is_there = path is None or os.path.exists(path)
        entries = (
            one
            for one in journal.entries(logs.lines(path) if is_there else iter(()))
            if self.since < (journal.time_of(one) or 0.0) <= self.until
        )
        mails = notices.of_refusals(self.repository, self.states[0], entries)
        for address, text in mails.items():
            if address in self.refused:
                continue
            head = f"The registry {self.source} has refused what names your maintainers.\n\n"
            if not self.send(address, f"[{self.source}] refused submissions", head + text):
                return
            self.refused.append(address)
            self.note()
        self.since, self.until, self.refused = self.until, 0.0, []
        self.note()

    def send(self, address: str, subject: str, text: str) -> bool:
        """Whether there was room for a mail within this hour. An address that sendmail never takes
        is told, and passed over."""
        if self.is_dry:
            texts.put(self.post.message(address, subject, text + FOOT) + b"\n")
            return True
        if len(self.times) >= self.options.most:
            texts.note(
                f"irr notify: {len(self.times)} mails went within this hour, and no more may"
                " (--most); the rest goes with a later run"
            )
            self.note()
            return False
        try:
            self.post.send(address, subject, text + FOOT)
        except mail.Refused as error:
            texts.note(f"irr notify: {address}: {error}; passed over")
        self.times.append(self.now)
        return True


@reading("what was sent")
def read(path: Path) -> dict[str, Any]:
    """What was noted; nothing before the first run."""
    if not path.exists():
        return {}
    found = json.loads(files.read(str(path)))
    if not isinstance(found, dict):
        raise ValueError("no table")
    return found
