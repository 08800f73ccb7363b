"""`irr auth [NAME]`: makes an `auth` line of a new password, or of one that is asked for, and with
a name the mntner."""
import argparse
import contextlib

from irr.errors import ARGUMENTS, DONE, Failure
from irr.local.databases import DEFAULT
from irr.registry import server, submissions
from irr.registry.refusals import source_of
from irr.rpsl import hashes, keys
from irr.rpsl.syntax import Attribute, Paragraph
from irr.system import files, tomls
from irr.terminal import prompts, texts

EXAMPLES = f"""
irr auth                              an `auth` line of a new password, which the terminal shows
irr auth --ask                        one of a password that you type
irr auth --save my.password EXAMPLE-MNT > mntner.rpsl
irr submit my.password mntner.rpsl    make a new maintainer, and register it
irr auth ROOT-MNT                     in the folder of irr.toml, before the registry is served
{prompts.WORTH}"""


def arguments(parser: argparse.ArgumentParser) -> None:
    server.add_options(parser)
    how = parser.add_mutually_exclusive_group()
    how.add_argument(
        "--ask",
        action="store_true",
        help="ask for the password, twice; by default, one of 96 random bits is generated",
    )
    how.add_argument(
        "--save",
        metavar="FILE",
        help="write the new password into a new file that only you can read, as a `password:` line",
    )
    prompts.add_short(parser)
    parser.add_argument(
        "--source",
        metavar="NAME",
        help="write this registry name into the mntner; by default, the server is asked",
    )
    parser.add_argument(
        "name", nargs="?", metavar="NAME", help="print the mntner of this name with the line"
    )


def run(options: argparse.Namespace) -> int:
    mntner = None
    if options.source is not None and keys.read_source(options.source) is None:
        raise Failure(
            "--source",
            (
                f"{options.source} is not a registry's name; write letters, digits, - and _, such"
                " as EXAMPLE"
            ),
            ARGUMENTS,
        )
    if options.name:
        mntner = keys.need_maintainer(options.name), options.source or registered_source(options)
    password = (
        prompts.ask_new("new password", options.short) if options.ask else hashes.new_password()
    )
    item = submissions.password_item(password, "new password")
    secret = submissions.secret_of(item.passwords()[0])
    if options.save is not None:
        files.put_new(options.save, item.block.text + b"\n")
    elif not options.ask:
        show(password)
    value = hashes.auth_of(secret, hashes.new_salt()).encode()
    attributes = [(b"auth", value)]
    if mntner:
        name, source = mntner
        attributes = [
            (b"mntner", name.encode()),
            *attributes,
            (b"mnt-by", name.encode()),
            (b"source", source.encode()),
        ]
    texts.put(Paragraph([Attribute(name, [value]) for name, value in attributes]).text())
    return DONE


def registered_source(options: argparse.Namespace) -> str:
    place = server.Server.from_options(options.server, options.plain)
    try:
        source = source_of(place.query("less 0.0.0.0/0").objects())
    except server.Absent as failure:
        # The root's is made before there is a registry.
        if source := source_here():
            return source
        why = f"{failure.what}, or give the registry's name by --source NAME"
        raise Failure(failure.thing, why, failure.status) from None
    if keys.read_source(source) is None:
        raise Failure(
            options.name, "the registry does not say its name; give it by --source NAME", ARGUMENTS
        )
    return source


def source_here() -> str:
    """The name of the registry whose settings are here or in the package's folder, which need no
    `auth` yet; nothing where there are none."""
    for path in "irr.toml", DEFAULT:
        with contextlib.suppress(Failure):
            source = tomls.parsed(path, tomls.text_of(path)).get("source")
            if isinstance(source, str) and keys.read_source(source):
                texts.note(f"irr auth: nothing listens; {source} is the registry of {path}")
                return source
    return ""


def show(password: str) -> None:
    """Shows a new password at the terminal and nowhere else."""
    try:
        with open("/dev/tty", "w", encoding="ascii") as terminal:
            terminal.write(f"password: {password}\nKeep it: the registry has only a hash of it.\n")
    except OSError:
        raise Failure(
            "",
            "there is no terminal to show the new password at; write it into a file by --save FILE",
            ARGUMENTS,
        ) from None
