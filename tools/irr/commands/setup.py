"""`irr setup`: a first registry, by questions or by options."""

import argparse
import os
import re
import shutil
import sys
from pathlib import Path
from typing import Any, Callable, TypeVar

from irr.door.settings import networks
from irr.errors import ARGUMENTS, DONE, SETTINGS, Failure
from irr.local import databases, setups
from irr.local.setups import Plan
from irr.rpsl import keys
from irr.system import files, tomls
from irr.terminal import prompts, questions, texts

EXAMPLES = f"""
irr setup                                          the service's registry, with questions, as root
irr setup --yes --source EXAMPLE --save root.password --maintainer OPS-MNT \\
    --maintainer-save ops.password                 the same with options
irr setup --folder registry                        a registry in a folder of your own

It writes the settings, makes the registry, enables the units, and prints the next steps. If a run
was interrupted, the next one continues from there. An existing registry is left as it is.
{prompts.WORTH}"""
Answer = TypeVar("Answer")
WHO = ("nobody", "users", "anybody")
EXAMPLE_FILES = "share/doc/irrdesk/examples"


def arguments(parser: argparse.ArgumentParser) -> None:
    parser.add_argument(
        "--folder", metavar="FOLDER", help="make a registry in a folder of yours, without units"
    )
    parser.add_argument(
        "--settings",
        metavar="FILE",
        help=f"write these settings, by default {databases.DEFAULT}, and door.toml beside them",
    )
    parser.add_argument(
        "--yes",
        action="store_true",
        help="ask nothing, and use the proposed answers where no option gives another",
    )
    parser.add_argument("--source", metavar="NAME", help="give the registry this name")
    parser.add_argument(
        "--root",
        metavar="NAME",
        help="give the registry this root maintainer, by default ROOT-MNT",
    )
    parser.add_argument(
        "--save",
        metavar="FILE",
        help="write the root's new password into a new file that only you can read; by default, the"
        " terminal shows it once",
    )
    parser.add_argument(
        "--limit",
        metavar="COUNT",
        type=keys.number,
        help="set `limit` to this number, by default 10000",
    )
    parser.add_argument("--maintainer", metavar="NAME", help="register a first maintainer")
    parser.add_argument(
        "--maintainer-save", metavar="FILE", help="as --save, for the password of that maintainer"
    )
    for name, what in (
        ("door", "answer the world by irrdesk-door.service"),
        ("replicas", "serve replicas by irrdesk-mirror.service"),
        ("backups", "make a backup each night"),
        ("history", "keep each public state in git"),
    ):
        parser.add_argument(f"--{name}", action=argparse.BooleanOptionalAction, help=what)
    parser.add_argument(
        "--submit",
        metavar="WHO",
        action="append",
        help="let these submit through a proxy: nobody (the default), users, anybody, or an address"
        " or prefix; may be given several times",
    )
    parser.add_argument(
        "--mirror",
        metavar="ADDRESS",
        action="append",
        help="let this address or prefix mirror the registry by NRTM; may be given several times",
    )
    parser.add_argument(
        "--replace", action="store_true", help="with --yes: replace settings that somebody changed"
    )


def run(options: argparse.Namespace) -> int:
    os.umask(0o077)
    settings = place(options)
    plan = setups.kept(settings)
    if plan:
        need_same(options, plan)
        texts.note(f"irr setup: it goes on with what {setups.kept_at(settings)} says")
    else:
        plan = planned(options, settings)
    need_tools(plan)
    setups.Made(plan, show).do()
    for line in next_steps(plan):
        print(texts.shown_line(line))
    return DONE


def place(options: argparse.Namespace) -> str:
    """Where the settings are to be."""
    if options.folder is not None and options.settings is not None:
        raise Failure("--settings", "a registry in a folder has its own; leave it out", ARGUMENTS)
    if options.folder == "" or options.settings == "":
        raise Failure("", "the path is empty; give that of a folder or a file", ARGUMENTS)
    if options.folder is not None:
        return os.path.abspath(os.path.join(options.folder, "irr.toml"))
    if os.geteuid():
        raise Failure(
            "", "the service's registry takes root; for one of your own add --folder", ARGUMENTS
        )
    return os.path.abspath(options.settings or databases.DEFAULT)


# The plan.


def planned(options: argparse.Namespace, settings: str) -> Plan:
    """What is to be made, as the options say it, and answers."""
    is_service = options.folder is None
    found = tomls.parsed(settings, tomls.text_of(settings))
    store = str(found.get("store") or setups.PACKAGED["store"])
    if is_service:
        # A relative path begins where the service runs.
        store = os.path.join(os.path.dirname(setups.PACKAGED["store"]), store)
    else:
        store = os.path.join(os.path.dirname(settings), "irr.db")
    need_path(store)
    plan = Plan(settings, "", "", 0, store, is_service)
    setups.need_new(plan, bool(found.get("auth")))
    if not options.yes and not questions.can_ask():
        raise Failure(
            "", "there is no terminal to ask at; add --yes, and what is to be set", ARGUMENTS
        )
    asker = Asker(options)
    source = found.get("source", "")
    plan.source = asker.word(
        "source", "Name of the registry", source if source != "EXAMPLE" else "", read_source
    )
    plan.root = asker.word(
        "root", "Root maintainer", found.get("root", "ROOT-MNT"), keys.need_maintainer
    )
    if not found.get("auth"):
        plan.save = asker.file("save", "File for its password (nothing: it is shown here, once)")
    elif options.save is not None:
        raise Failure("--save", f"{settings} has an `auth` already; leave it out", ARGUMENTS)
    limit = found.get("limit", setups.PACKAGED["limit"])
    plan.limit = asker.word("limit", "Most names that an expansion may reach", limit, read_limit)
    asker.outside(plan)
    plan.maintainer = asker.word("maintainer", "First maintainer, or none", "none", read_first)
    if plan.maintainer == plan.root:
        raise Failure(plan.root, "this is the root maintainer; take another first one", ARGUMENTS)
    if plan.maintainer:
        plan.maintainer_save = asker.file(
            "maintainer_save", "File for its password (nothing: it is shown here, once)"
        )
        paths = [os.path.realpath(path) for path in (plan.save, plan.maintainer_save) if path]
        if len(paths) > len(set(paths)):
            raise Failure(plan.save, "two passwords need a file each; name another", ARGUMENTS)
    check(plan, options, bool(found.get("auth")))
    return plan


class Asker:
    """What an option says, or an answer at the terminal, or with --yes what is proposed."""

    def __init__(self, options: argparse.Namespace) -> None:
        self.options = options

    def word(
        self, name: str, question: str, proposed: Any, read: Callable[[str], Answer]
    ) -> Answer:
        given = getattr(self.options, name)
        if given is not None:
            return read(str(given))
        if not self.options.yes:
            return questions.ask(question, str(proposed), read, True)
        if proposed == "":
            raise Failure(f"--{name}", "it is missing; add it", ARGUMENTS)
        return read(str(proposed))

    def file(self, name: str, question: str) -> str:
        given = getattr(self.options, name)
        if given is None:
            given = "" if self.options.yes else questions.ask(question, "", read_new, True)
        elif given == "":
            files.need_name(given)
        return read_new(given)

    def flag(self, name: str, question: str, proposed: bool) -> bool:
        given = getattr(self.options, name)
        if given is not None or self.options.yes:
            return bool(proposed if given is None else given)
        return questions.agrees(question, proposed)

    def list(
        self, name: str, question: str, proposed: str, read: Callable[[str], list[str]]
    ) -> list[str]:
        given = getattr(self.options, name)
        if given is not None:
            return read(" ".join(given))
        return read(proposed) if self.options.yes else questions.ask(question, proposed, read)

    def history(self) -> bool:
        """Whether a history is kept. That it takes git is said before more is asked."""
        has_git = shutil.which("git") is not None
        if self.options.history is not None or self.options.yes:
            return self.flag("history", "", has_git)
        question = "A history of the public state, in git"
        if has_git:
            return questions.agrees(question, True)
        return questions.ask(f"{question}, which is not installed", "no", read_history)

    def outside(self, plan: Plan) -> None:
        """What stands round the registry."""
        plan.door = self.flag("door", "A door: whois at port 43, HTTP for a proxy", plan.is_service)
        if not plan.is_service:
            for name in "replicas", "backups", "history", "submit", "mirror":
                if getattr(self.options, name) not in (None, False):
                    raise Failure(
                        f"--{name}", "a registry in a folder has no units; leave it out", ARGUMENTS
                    )
            return
        if plan.door:
            plan.submit = self.list(
                "submit",
                "Who may submit through the proxy: nobody, users, anybody, or addresses",
                "nobody",
                read_who,
            )
        plan.replicas = self.flag(
            "replicas", "Two replicas, each with the registry's memory", plan.door
        )
        plan.backups = self.flag("backups", "A backup each night", True)
        plan.history = self.history()
        if plan.door and plan.history:
            plan.mirrors = self.list(
                "mirror", "Addresses that may mirror by NRTM, or none", "none", read_networks
            )
        for name, is_taken in (("submit", plan.door), ("mirror", plan.door and plan.history)):
            if getattr(self.options, name) is not None and not is_taken:
                wanted = "a door" if name == "submit" else "a door and a history"
                raise Failure(f"--{name}", f"it takes {wanted}; add it", ARGUMENTS)


def read_source(text: str) -> str:
    source = keys.read_source(text)
    if source is None:
        raise Failure(
            text or "nothing",
            "this is not a registry's name; write letters, digits, - and _, such as EXAMPLE",
            ARGUMENTS,
        )
    return source


def read_limit(text: str) -> int:
    limit = keys.read_number(text, 1, 1_000_000)
    if limit is None:
        raise Failure("limit", "it takes a number from 1 to 1000000; correct it", ARGUMENTS)
    return limit


def read_first(text: str) -> str:
    return "" if text in ("none", "") else keys.need_maintainer(text)


def read_history(text: str) -> bool:
    is_kept = questions.is_yes(text)
    if is_kept:
        need_git()
    return is_kept


def read_new(text: str) -> str:
    """The whole path of a file that is not there yet; nothing for none."""
    if not text:
        return ""
    files.need_new(text)
    path = os.path.abspath(text)
    if not os.path.isdir(os.path.dirname(path)):
        raise Failure(text, "there is no such folder; make it, or take another path", ARGUMENTS)
    return path


def read_who(text: str) -> list[str]:
    words = text.replace(",", " ").split()
    networks(tuple(word for word in words if word not in WHO), "--submit")
    if not words or len(words) > 1 and {"nobody", "anybody"} & {*words}:
        raise Failure(text or "nothing", f"write {', '.join(WHO)}, or addresses", ARGUMENTS)
    return words


def read_networks(text: str) -> list[str]:
    words = [] if text == "none" else text.replace(",", " ").split()
    networks(tuple(words), "--mirror")
    return words


def need_path(path: str) -> None:
    """That a path can stand in settings, and leads to one place from everywhere."""
    if not os.path.isabs(path) or not re.fullmatch(r"[!#-\[\]-~]+", path):
        raise Failure(
            path,
            "`store` has to be a whole path of letters, digits and the like; correct it, or take"
            " another folder",
            SETTINGS,
        )


def check(plan: Plan, options: argparse.Namespace, has_auth: bool) -> None:
    """What is to be made, said once more, and agreed to. What somebody has set is replaced by those
    alone who were told."""
    others = [
        f"{path} has {name} = {tomls.written(old)}, which becomes {tomls.written(new)}"
        for path, name, old, new in setups.set_by_others(plan)
    ]
    if others and options.yes and not options.replace:
        raise Failure("", f"{'; '.join(others)}: leave out the option, or add --replace", SETTINGS)
    if not options.yes:
        for line in [*summary(plan, has_auth), *others]:
            print(texts.shown_line(f"  {line}"))
        if not questions.agrees("Make it", True):
            raise Failure("", "nothing was made; run it again", ARGUMENTS)


def summary(plan: Plan, has_auth: bool) -> list[str]:
    password = f"in {plan.save}" if plan.save else "shown here, once"
    lines = [
        f"registry {plan.source}, in {plan.store}; settings in {plan.settings}",
        f"root maintainer {plan.root}; its password: "
        + (f"that of `auth` in {plan.settings}" if has_auth else password),
    ]
    if plan.maintainer:
        password = f"in {plan.maintainer_save}" if plan.maintainer_save else "shown here, once"
        lines.append(f"first maintainer {plan.maintainer}; its password: {password}")
    lines.append(f"names that an expansion may reach: {plan.limit}")
    if plan.door and plan.is_service:
        lines.append(f"who may submit through the proxy: {' '.join(plan.submit)}")
        lines.append(f"who may mirror: {' '.join(plan.mirrors) or 'nobody'}")
    return lines + ([f"units: {' '.join(plan.units)}"] if plan.units else [])


def need_same(options: argparse.Namespace, plan: Plan) -> None:
    """That no option says anything else than the plan that is gone on with."""
    for name in ("source", "root", "limit", "maintainer", "door", "replicas", "backups", "history"):
        given = getattr(options, name)
        if name == "maintainer" and given is not None:
            given = read_first(given)
        need_as_planned(name, given, getattr(plan, name), plan)
    for name in ("save", "maintainer_save"):
        given = getattr(options, name)
        need_as_planned(name, given and os.path.abspath(given), getattr(plan, name), plan)
    for name, planned_value in (("submit", plan.submit), ("mirror", plan.mirrors)):
        given = getattr(options, name)
        need_as_planned(
            name, given and " ".join(given).replace(",", " ").split(), planned_value, plan
        )


def need_as_planned(name: str, given: Any, planned_value: Any, plan: Plan) -> None:
    if given is not None and given != planned_value:
        had = " ".join(planned_value) if isinstance(planned_value, list) else planned_value
        if isinstance(had, bool):
            had = "it" if had else ""
        raise Failure(
            f"--{name.replace('_', '-')}",
            f"the run that was stopped had {had or 'none'}; leave this out, or remove"
            f" {setups.kept_at(plan.settings)} and what it left",
            ARGUMENTS,
        )


def need_tools(plan: Plan) -> None:
    """What the plan takes that may not be here."""
    if plan.units and shutil.which("systemctl") is None:
        raise Failure("systemctl", "it is not here; make a registry by --folder", ARGUMENTS)
    if plan.history:
        need_git()
    has_auth = tomls.parsed(plan.settings, tomls.text_of(plan.settings)).get("auth")
    is_shown = not plan.save and not has_auth or plan.maintainer and not plan.maintainer_save
    if is_shown and not has_terminal():
        raise Failure(
            "",
            "there is no terminal to show a password at; add --save FILE, and --maintainer-save"
            " FILE for a first maintainer",
            ARGUMENTS,
        )


def need_git() -> None:
    if shutil.which("git") is None:
        raise Failure("git", "a history takes it; install it, or do without a history", ARGUMENTS)


def has_terminal() -> bool:
    try:
        os.close(os.open("/dev/tty", os.O_RDWR | os.O_NOCTTY))
    except OSError:
        return False
    return True


def show(name: str, password: str) -> None:
    """Shows a new password at the terminal and nowhere else."""
    with open("/dev/tty", "w", encoding="ascii") as terminal:
        terminal.write(f"{name}: {password}\nKeep it: the registry has only a hash of it.\n")


# What is next.


def examples() -> Path:
    """The folder of the examples: that beside this tool, or else the package's."""
    beside = Path(sys.argv[0]).resolve().parent.parent / EXAMPLE_FILES
    return beside if beside.is_dir() else Path("/usr", EXAMPLE_FILES)


def next_steps(plan: Plan) -> list[str]:
    """What an operator does then."""
    lines = ["", "What is next:"]
    if not plan.is_service:
        lines += [
            f"  irrdesk serve {plan.settings} --port 4343 --count 1000000",
            *[f"  irr door {plan.door_settings}"] * plan.door,
            f"  irr backup --settings {plan.settings} {plan.folder / 'backups'}",
        ]
    lines += [
        f"  irr query {plan.maintainer or plan.root}",
        *["  irr check"] * plan.is_service,
        f"  irr submit {plan.save or f'--as {plan.root}'} FILE        what the root signs",
    ]
    if plan.door and plan.is_service:
        nginx, haproxy = plan.submitters
        lines += [
            f"  TLS and the page for people: {examples()}/nginx.conf or haproxy.cfg;",
            "  who may submit:",
            f"    include {nginx};",
            "    in `location = /submissions` of nginx.conf, in place of the lines from `satisfy`",
            "    to `auth_basic_user_file`, or",
            f"    acl may_submit src -f {haproxy}",
            "    in haproxy.cfg, in place of its line `acl may_submit`",
            *[f"    htpasswd -B -c {setups.USERS} USER        of Debian's apache2-utils"]
            * ("users" in plan.submit),
        ]
    pages = examples().parent / "docs"
    if plan.mirrors:
        lines.append(f"  the dump that a mirror begins with, by nginx: {pages}/MIRRORING.md")
    if plan.replicas and plan.limit != setups.PACKAGED["limit"]:
        lines.append(f"  systemctl edit irrdesk-mirror: --limit {plan.limit} in ExecStart")
    return [
        *lines,
        f"  delegating space to holders: {pages}/OPERATING.md",
        f"  what to watch: {pages}/WATCHING.md",
    ]
