"""The one table of the commands of `irr`. Help, completion and the check of the manual read it.

A command is a module of this folder, with

    EXAMPLES: str                     what stands under `Examples:` in its help
    arguments(parser) -> None         adds its words to an `argparse.ArgumentParser`
    run(options) -> int               does it, and gives the status; anything else that ends it
                                      is a `Failure`
"""
from typing import NamedTuple

ASK, REGISTER, FILTER, KEEP, COPY, ABOUT = GROUPS = (
    "ask",
    "register",
    "filter",
    "keep",
    "copy",
    "about",
)


class Command(NamedTuple):
    """A command: its name on the command line, its group, its module in this folder, and what it
    does in a few words."""

    name: str
    group: str
    module: str
    summary: str


TABLE = (
    Command("query", ASK, "query", "query a registry"),
    Command("dump", ASK, "dump", "print the public dump"),
    Command("tree", ASK, "tree", "print who holds what below a prefix"),
    Command(
        "held", ASK, "held", "say whether anybody else can change a prefix, and how to mend it"
    ),
    Command("submit", REGISTER, "submit", "send a submission, or show which report it would get"),
    Command("diff", REGISTER, "diff", "compare a submission with what is registered"),
    Command("auth", REGISTER, "auth", "make a password and its auth line"),
    Command(
        "delegate", REGISTER, "delegate", "print the text that hands over prefixes and AS numbers"
    ),
    Command("explain", REGISTER, "explain", "print what a code of a report means, and what to do"),
    Command("filter", FILTER, "filter", "make a filter for BIRD or FRR"),
    Command("why", FILTER, "why", "say by which references a prefix is in a set"),
    Command("rov", FILTER, "rov", "compare the registered routes with ROAs"),
    Command("setup", KEEP, "setup", "make a first registry, with questions or options"),
    Command("check", KEEP, "check", "report what is wrong with the registry of this machine"),
    Command(
        "door", KEEP, "door", "answer the world: whois in three dialects, HTTP, and submissions"
    ),
    Command("log", KEEP, "log", "print who submitted what through the door"),
    Command("backup", KEEP, "backup", "make a verified backup of a registry, served or not"),
    Command("restore", KEEP, "restore", "replace a registry with a backup"),
    Command(
        "reset", KEEP, "reset", "give a maintainer a new password, while the server is stopped"
    ),
    Command(
        "history", KEEP, "history", "keep each public state of a registry, and print earlier ones"
    ),
    Command("notify", KEEP, "notify", "mail changes and refusals to those concerned"),
    Command(
        "import", COPY, "import_", "convert dumps of other registries into one that irrdesk loads"
    ),
    Command("export", COPY, "export", "write the public dump into a file for each class"),
    Command(
        "mirror", COPY, "mirror", "serve replicas: copies of a registry that answer its queries"
    ),
    Command("view", COPY, "view", "serve several registries as one"),
    Command("nrtm4", COPY, "nrtm4", "print and change the keys that sign files for mirrors"),
    Command(
        "completion", ABOUT, "completion", "print what a shell needs to complete commands of irr"
    ),
)
BY_NAME = {command.name: command for command in TABLE}
