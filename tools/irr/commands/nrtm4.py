"""`irr nrtm4 KEYS`: the keys that sign the notification file of NRTM, version 4."""
import argparse
import time
from pathlib import Path

from irr.errors import ARGUMENTS, DONE, Failure
from irr.system import files, signing
from irr.terminal import texts

EXAMPLES = """
irr nrtm4 /var/lib/irrdesk-nrtm4          print the public key, and the next one
irr nrtm4 --new /var/lib/irrdesk-nrtm4    make the next key, and announce it to mirrors
irr nrtm4 --roll /var/lib/irrdesk-nrtm4   sign with the next key from now on

`irr export --nrtm4` makes the first key. Give mirrors the public key over another channel than the
files. Run --new and --roll as the user of the unit: runuser -u irrdesk-public -- irr nrtm4 ...
"""
# Seconds for which a next key is announced before it signs.
ANNOUNCED = 7 * 86_400


def arguments(parser: argparse.ArgumentParser) -> None:
    does = parser.add_mutually_exclusive_group()
    does.add_argument("--new", action="store_true", help="make the first key, or the next one")
    does.add_argument("--roll", action="store_true", help="sign with the next key from now on")
    parser.add_argument(
        "--algorithm",
        choices=list(signing.MAKES),
        help="make a key of Ed25519 (EdDSA, the default) or of P-256 (ES256)",
    )
    parser.add_argument(
        "--now", action="store_true", help="with --roll: even within a week after the key was made"
    )
    parser.add_argument("keys", metavar="KEYS", help="the folder of the keys")


def run(options: argparse.Namespace) -> int:
    if options.algorithm and not options.new:
        raise Failure("--algorithm", "it is for --new; leave it out", ARGUMENTS)
    if options.now and not options.roll:
        raise Failure("--now", "it is for --roll; leave it out", ARGUMENTS)
    folder = Path(options.keys)
    keys = signing.Keys(folder)
    if options.new:
        with files.locked(files.folder(folder, 0o700)):
            keys.make(options.algorithm or "EdDSA")
    elif options.roll:
        roll(keys, options.now)
    show(keys)
    return DONE


def roll(keys: signing.Keys, is_now: bool) -> None:
    """Lets the next key sign once mirrors know it."""
    with files.locked(files.folder(keys.folder, 0o700)):
        days = (time.time() - keys.next.stat().st_mtime) / 86_400 if keys.next.exists() else 0
        if keys.next.exists() and days * 86_400 < ANNOUNCED and not is_now:
            raise Failure(
                str(keys.next),
                f"it was made {days:.1f} days ago; wait until it was announced for"
                f" {ANNOUNCED // 86_400}, so that each mirror has seen it, or give --now",
            )
        keys.roll()


def show(keys: signing.Keys) -> None:
    if not keys.now.exists():
        raise Failure(
            str(keys.folder), "it has no key; `irr export --nrtm4` makes one, or --new", ARGUMENTS
        )
    for path, words in (keys.now, "signs now"), (keys.next, "is announced as the next"):
        if path.exists():
            texts.put(f"% {words}: {signing.algorithm_of(path)}\n{signing.public(path)}".encode())
