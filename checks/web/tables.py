"""The tables of the tool that the page has too: `python3 -m checks.web.tables` writes them."""

import json
import sys
import textwrap
from pathlib import Path

TOP = Path(__file__).resolve().parents[2]
sys.path.append(str(TOP / "tools"))

from irr.registry.codes import TABLE  # noqa: E402
from irr.rpsl import grammar, keys  # noqa: E402

WEB = Path(TOP, "web")
FILES = sorted(str(path.relative_to(WEB)) for path in WEB.rglob("*") if path.is_file())
TABLES = WEB / "lib/tables.js"
WIDEST = 100


def literal(text: str, indent: int, end: str = ",") -> str:
    """A text as a script has it, in lines that are not too wide."""
    parts = textwrap.wrap(
        text, WIDEST - indent - 12, break_on_hyphens=False, drop_whitespace=False
    ) or [""]
    return f" +\n{' ' * indent}".join(map(json.dumps, parts)) + end


def codes_block() -> str:
    """The table of refusals, as the page has it."""
    lines = [
        f"    {code.code}: [\n        {literal(code.sentence, 12)}\n"
        f"        {literal(code.remedy, 12)}\n    ],\n"
        for code in TABLE
    ]
    return "export const CODES = {\n" + "".join(lines) + "};\n"


def grammar_block() -> str:
    """The grammar of objects, as the page has it."""
    rules = [rule for of_class in grammar.TABLE.values() for rule in of_class.values()]
    forms = {rule.form.name: rule.form.words for rule in rules}
    return "".join(
        [
            named("TABLE", {kind: rows(of_class) for kind, of_class in grammar.TABLE.items()}),
            named("FORMS", {name: literal(words, 8, "") for name, words in forms.items()}),
            named(
                "KEY_WORDS", {kind: literal(words, 8, "") for kind, words in grammar.KEYS.items()}
            ),
            named("WORDS", {name: literal(words, 8, "") for name, words in grammar.WORDS.items()}),
            "export const HINTS = [\n",
            *(
                f"    [{', '.join(literal(one, 8, '') for one in hint)}],\n"
                for hint in grammar.HINTS
            ),
            "];\n",
            listed("INTERPRETED", grammar.INTERPRETED),
            listed("SECRETS", grammar.SECRETS),
            listed("RESERVED", sorted(keys.RESERVED)),
        ]
    )


def rows(of_class: dict[str, grammar.Rule]) -> str:
    lines = [
        f"        {json.dumps(name)}: {json.dumps([rule.occurs, rule.division, rule.form.name])},\n"
        for name, rule in of_class.items()
    ]
    return "{\n" + "".join(lines) + "    }"


def named(name: str, values: dict[str, str]) -> str:
    """A constant that has values by names."""
    lines = [f"    {json.dumps(key)}: {value},\n" for key, value in values.items()]
    return f"export const {name} = {{\n{''.join(lines)}}};\n"


def listed(name: str, words: "list[str] | tuple[str, ...]") -> str:
    """A constant that is a list of words."""
    return f"export const {name} = (\n    {literal(' '.join(words), 4, '')}\n).split(' ');\n"


def tables() -> str:
    """The module of the page that has them all."""
    return (
        "// Made of tools/irr/registry/codes.py and tools/irr/rpsl/grammar.py by\n"
        "// `python3 -m checks.web.tables`.\n" + grammar_block() + codes_block()
    )


if __name__ == "__main__":
    TABLES.write_text(tables(), encoding="utf-8")
