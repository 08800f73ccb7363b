"""Mail, as the machine's own `sendmail` takes it."""

import email.message
import email.policy
import email.utils
import re
import subprocess

from irr.errors import Failure, system_words

SENDMAIL = "/usr/sbin/sendmail"
# A local part and a domain without anything that needs quotes (RFC 5321, 4.1.2), within its bounds.
ADDRESS = re.compile(
    r"(?=.{3,254}\Z)[A-Za-z0-9!#$%&'*+/=?^_`{|}~][A-Za-z0-9!#$%&'*+/=?^_`{|}~.-]{0,63}"
    r"@(?:[A-Za-z0-9](?:[A-Za-z0-9-]{0,61}[A-Za-z0-9])?\.)+[A-Za-z0-9-]{2,63}"
)
# What sendmail ends with for an address that it will never take (sysexits.h).
NEVER = (64, 65, 67, 68)
SECONDS = 120


class Refused(Exception):
    """An address that sendmail will never take."""


def is_address(text: str) -> bool:
    """Whether mail can go there."""
    return ADDRESS.fullmatch(text) is not None and ".." not in text


class Post:
    """Sends as one address."""

    def __init__(self, sender: str, program: str = SENDMAIL) -> None:
        self.sender, self.program = sender, program

    def message(self, address: str, subject: str, text: str) -> bytes:
        """A whole message, of lines that every server carries. No machine answers it (RFC 3834)."""
        made = email.message.EmailMessage(policy=email.policy.SMTP.clone(linesep="\n"))
        made["From"], made["To"], made["Subject"] = self.sender, address, subject
        made["Date"] = email.utils.formatdate()
        made["Message-ID"] = email.utils.make_msgid(domain=self.sender.rpartition("@")[2])
        made["Auto-Submitted"] = "auto-generated"
        made.set_content(text)
        return made.as_bytes()

    def send(self, address: str, subject: str, text: str) -> None:
        """Hands a message over; a Failure where it may be taken another time."""
        words = [self.program, "-i", "-f", self.sender, "--", address]
        try:
            done = subprocess.run(
                words,
                input=self.message(address, subject, text),
                stdout=subprocess.DEVNULL,
                stderr=subprocess.PIPE,
                timeout=SECONDS,
                check=False,
            )
        except OSError as error:
            raise Failure(
                self.program,
                f"it cannot be run: {system_words(error)}; install a mail server, such as Debian's"
                " postfix or msmtp-mta",
            ) from None
        except subprocess.TimeoutExpired:
            raise Failure(
                self.program, f"no end after {SECONDS} s; look at the mail server"
            ) from None
        reported = " ".join(done.stderr.decode("utf-8", "replace").split())
        if done.returncode in NEVER:
            raise Refused(reported or f"status {done.returncode}")
        if done.returncode:
            raise Failure(
                self.program,
                f"{reported or f'it ended with status {done.returncode}'}; look at the mail server:"
                " what was not sent goes with the next run",
            )
