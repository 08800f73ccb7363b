"""How irr ends where what it was given can't be read, or what it prints can't be written."""

import os
import signal
import subprocess
import sys
import unittest
from pathlib import Path
from unittest import mock

from checks.running import PATIENCE
from irr.errors import UNREAD, Failure, unread
from irr.local import history
from irr.rpsl import keys
from irr.terminal import prompts

TOOLS = str(Path(__file__).resolve().parents[2] / "tools")
FULL = "standard output: no space left on device; look where it goes to"


class Unforeseen(unittest.TestCase):
    def test_what_was_not_foreseen_is_named(self) -> None:
        for fails, words in [
            (
                lambda: history.shown_time(float("nan")),
                "the history can't be read (ValueError); look at what was given",
            ),
            (
                lambda: keys.address_text(-1),
                (
                    "an argument, a file or an answer can't be read (OverflowError); look at what"
                    " was given"
                ),
            ),
        ]:
            try:
                fails()
            except UNREAD as error:
                self.assertEqual(str(unread(error)), words)


class Asked(unittest.TestCase):
    def test_a_password_in_another_encoding_is_refused(self) -> None:
        """A password typed in another encoding than that of the locale, as getpass meets it."""
        fault = UnicodeDecodeError("utf-8", b"\xff", 0, 1, "invalid start byte")
        with mock.patch("getpass.getpass", side_effect=fault), mock.patch(
            "os.open", return_value=os.dup(1)
        ):
            with self.assertRaisesRegex(
                Failure, "^the new password is not text in the encoding of the locale; give"
            ) as raised:
                prompts.ask("new password: ")
        self.assertEqual(raised.exception.status, 2)

    def test_a_prompt_is_escaped(self) -> None:
        """A prompt goes to the terminal past the stream that escapes what is printed."""
        with mock.patch("getpass.getpass", return_value="x") as asked, mock.patch(
            "os.open", return_value=os.dup(1)
        ):
            prompts.ask("password of x\x1b[31m\n: ")
        asked.assert_called_once_with("password of x\\x1b[31m\\x0a: ")


def heard() -> None:
    """Lets signals end what is started, also where the caller ignores them."""
    for number in signal.SIGHUP, signal.SIGINT, signal.SIGTERM:
        signal.signal(number, signal.SIG_DFL)


def interrupted(*words: str) -> subprocess.CompletedProcess[str]:
    """A command that hears signals, whoever began it, once it has ended."""
    return subprocess.run(
        words,
        cwd=TOOLS,
        capture_output=True,
        text=True,
        timeout=PATIENCE,
        check=False,
        preexec_fn=heard,
    )


class Ends(unittest.TestCase):
    """One line on standard error, a status, and nothing of Python's."""

    def ended(self, line: str, words: str, status: int = 5, **environment: str) -> None:
        made = subprocess.run(
            ["sh", "-c", line.replace("irr", f"exec {sys.executable} -B -m irr", 1)],
            cwd=TOOLS,
            capture_output=True,
            text=True,
            timeout=PATIENCE,
            check=False,
            env=os.environ | environment,
        )
        self.assertEqual(
            (made.returncode, made.stderr.count("\n")), (status, 1), (line, made.stderr)
        )
        self.assertRegex(made.stderr, f"^irr[ a-z]*: {words}\n$", line)

    def test_a_closed_output_is_reported(self) -> None:
        self.ended("irr --version >&-", "standard output: it is closed; .*")

    def test_a_full_output_is_reported(self) -> None:
        for words in [
            "--version",
            "help",
            "--help",
            "help query",
            "query --help",
            "filter -h",
            "completion bash",
            "explain E01",
        ]:
            self.ended(f"irr {words} >/dev/full", FULL)

    def test_a_failure_after_lost_output_has_one_line(self) -> None:
        """What was printed before, and can't be written, adds no line of its own."""
        environment = {key: value for key, value in os.environ.items() if key != "PYTHONUNBUFFERED"}
        for raised in "errors.Failure('x', 'failed; mend it')", "ValueError()":
            source = (
                "import sys; from irr import errors, main\ndef do(words):\n    print('x')\n"
                f"    raise {raised}\nmain.do = do\nsys.exit(main.main([]))"
            )
            with open("/dev/full", "wb") as full:
                made = subprocess.run(
                    [sys.executable, "-B", "-c", source],
                    cwd=TOOLS,
                    stdout=full,
                    stderr=subprocess.PIPE,
                    text=True,
                    timeout=PATIENCE,
                    check=False,
                    env=environment,
                )
            self.assertEqual((made.returncode, made.stderr.count("\n")), (5, 1), made.stderr)

    def test_a_closed_input_is_reported(self) -> None:
        for words in [
            "submit -",
            "submit -n -",
            "diff -",
            "rov -",
            "filter --settings -",
            "import --source X --root A-MNT --auth SHA256-PW\\ a:" + "0" * 64 + " -",
        ]:
            self.ended(f"irr {words} <&-", "standard input: it is closed; .*")
        for words in "diff -", "rov -", "filter --settings -", "submit --raw -":
            self.ended(f"irr {words} 0>/dev/null", "standard input: .*bad file descriptor; .*")

    def test_a_bad_address_is_reported(self) -> None:
        for address in (
            "https://a..b",
            "http://127.0.0.1/\u00e4",
            "'http://127.0.0.1/a b'",
            "http://127.0.0.1:0",
        ):
            self.ended(f"irr query -s {address} x", ".*: this is not an address; .*", 2)

    def test_a_bad_number_is_reported(self) -> None:
        self.ended(
            f"irr filter --widest {'9' * 5_000} bird X AS1 -", "9*: this is not a length; .*", 2
        )

        for words in (
            "filter --widest={} bird X AS1 -",
            "mirror --port={} /nonexistent",
            "mirror --every={} /nonexistent",
            "backup --keep={} /nonexistent",
            "backup --hold={} /nonexistent",
            "history --limit={} /nonexistent",
        ):
            for number in "\u0663", "\u00b2", "1_0", "' 1'", "-1", "":
                self.ended(
                    f"irr {words.format(number)} </dev/null",
                    ".*(is not a length|is not a place|invalid (number|decimal) value).*",
                    2,
                )

    def test_a_signal_ends_it_without_words_unless_it_is_ignored(self) -> None:
        """A command goes on where a signal is ignored, as nohup has it, and has no words of
        Python's where it ends by one."""
        code = (
            "import os, signal, sys, irr.main as main; main.do = lambda _: os.kill(os.getpid(),"
            " int(sys.argv[1])) or 0; sys.exit(main.main())"
        )
        for name, number, status in (
            ("HUP", signal.SIGHUP, 129),
            ("TERM", signal.SIGTERM, 143),
            ("INT", signal.SIGINT, 130),
        ):
            for trap, wanted in ("", status), (f"trap '' {name};", 0):
                line = f"{trap} {sys.executable} -B -c '{code}' {int(number)} 2>&1; exit $?"
                made = interrupted("sh", "-c", line)
                self.assertEqual((made.returncode, made.stdout), (wanted, ""), line)

    def test_an_early_interrupt_has_no_words(self) -> None:
        """The same where the tool is not there yet."""
        code = (
            "import os, signal, sys; sys.meta_path.insert(0, type('', (), {'find_spec': lambda *_:"
            " os.kill(os.getpid(), signal.SIGINT)})); exec(open('irr/__main__.py').read())"
        )
        made = interrupted(sys.executable, "-B", "-c", code)
        self.assertEqual((made.returncode, made.stderr), (-2, ""))

    def test_an_empty_name_of_a_file_is_no_terminal(self) -> None:
        """What was to go to a file is not printed in its place."""
        self.ended(
            "irr auth --save '' --source TEST A-MNT",
            "the name of the file to write is empty; give its path",
            2,
        )

    def test_help_takes_one_command(self) -> None:
        self.ended(
            "irr help query dump", "help: it takes one command at most; write `irr help COMMAND`", 2
        )
        self.ended("irr --version x", "--version: nothing goes with it; .*", 2)
        self.ended("irr help nothing", "nothing: there is no such command; .*", 2)

    def test_a_bad_source_is_reported(self) -> None:
        for name in "'TEST\nmnt-by: X'", "T\u00c9ST", "T\u0660", "1X", "X-", "''", "X" * 81, "'X '":
            self.ended(
                f"irr auth --save /nonexistent/x --source {name} A-MNT",
                "--source: .*is not a registry's name; .*",
                2,
            )

    def test_a_bad_maintainer_is_reported(self) -> None:
        for words in [
            "submit --as {} -",
            "submit -n --as {} -",
            "submit -n --whose {} -",
            "submit -n --whose=A-MNT,-,{} -",
            "held 192.0.2.0/24 {}",
            "delegate --known --as {} B-MNT 192.0.2.0/24",
            "delegate {} AS1",
            "reset {}",
            "auth {}",
            "import --source X --auth x --root {} -",
        ]:
            for name in "'A B'", "AS-X", "1-MNT", "\u00e4", "'x\x1b[31m'":
                self.ended(
                    f"irr {words.format(name)} </dev/null",
                    ".*: this is not a maintainer's name; .*",
                    2,
                )

    def test_a_netrc_that_cannot_be_read_is_reported(self) -> None:
        self.ended(
            "irr query x",
            "/nonexistent: it cannot be opened: no such file or directory; correct NETRC",
            NETRC="/nonexistent",
        )
        self.ended(
            "irr query x",
            "/dev/null: it cannot be opened: not a file; correct NETRC",
            NETRC="/dev/null",
        )


if __name__ == "__main__":
    unittest.main()
