"""`irr completion SHELL`: what a shell has to know to complete the words of `irr`."""
import argparse

from irr.commands import TABLE
from irr.errors import DONE

EXAMPLES = """
irr completion bash > ~/.local/share/bash-completion/completions/irr
irr completion zsh > ~/.zfunc/_irr            in a folder of $fpath
irr completion fish > ~/.config/fish/completions/irr.fish
"""
QUERIES = ("object", "exact", "closest", "less", "more", "inverse", "expand", "prefixes")


def arguments(parser: argparse.ArgumentParser) -> None:
    parser.add_argument("shell", choices=("bash", "zsh", "fish"), help="the shell")


def run(options: argparse.Namespace) -> int:
    print({"bash": bash, "zsh": zsh, "fish": fish}[options.shell](), end="")
    return DONE


def options_of(name: str) -> list[tuple[str, str]]:
    """The options of a command and their help, as its parser has them."""
    from irr.main import find, parser_of

    found = []
    for action in parser_of(find(name))._actions:
        for option in action.option_strings:
            found.append((option, (action.help or "").partition(";")[0]))
    return found


def words_of(name: str) -> list[str]:
    """The words that a command is known to take first."""
    from irr.main import find, parser_of

    if name == "query":
        return list(QUERIES)
    if name == "explain":
        from irr.registry.codes import TABLE as CODES

        return [code.code for code in CODES]
    return [
        word
        for action in parser_of(find(name))._actions
        if not action.option_strings
        for word in action.choices or ()
    ]


def words_after(name: str) -> list[str]:
    """What may follow a command: its options, and words of its own."""
    return [*(option for option, _ in options_of(name)), *words_of(name)]


def bash() -> str:
    cases = "".join(
        f"        {command.name})" f' words="{" ".join(words_after(command.name))}"' " ;;\n"
        for command in TABLE
    )
    names = " ".join(command.name for command in TABLE)
    return f"""# Completion of irr for bash, made by `irr completion bash`.
_irr() {{
    local words current=${{COMP_WORDS[COMP_CWORD]}}
    if [ "$COMP_CWORD" -eq 1 ]; then
        COMPREPLY=($(compgen -W "{names} help --help --version" -- "$current"))
        return
    fi
    case ${{COMP_WORDS[1]}} in
{cases}        help) words="{names}" ;;
    esac
    COMPREPLY=($(compgen -W "$words" -- "$current"))
    [ ${{#COMPREPLY[@]}} -gt 0 ] || COMPREPLY=($(compgen -f -- "$current"))
}}
complete -o filenames -F _irr irr
"""


def quoted(words: str) -> str:
    """A text inside single quotes, as zsh and fish read it."""
    return (
        words.replace("'", "")
        .replace("[", "(")
        .replace("]", ")")
        .replace(":", " -")
        .replace("`", "")
    )


def zsh() -> str:
    names = "\n".join(f"        '{command.name}:{quoted(command.summary)}'" for command in TABLE)
    cases = ""
    for command in TABLE:
        options = " ".join(
            f"'{option}[{quoted(words)}]'" for option, words in options_of(command.name)
        )
        words = words_of(command.name)
        rest = f"'*:word:({' '.join(words)})'" if words else "'*:file:_files'"
        cases += f"        {command.name}) _arguments {options} {rest} ;;\n"
    return f"""#compdef irr
# Completion of irr for zsh, made by `irr completion zsh`.
_irr() {{
    local -a commands
    commands=(
{names}
    )
    if (( CURRENT == 2 )); then
        _describe command commands
        return
    fi
    local name=$words[2]
    shift words
    (( CURRENT-- ))
    case $name in
{cases}    esac
}}
_irr "$@"
"""


def fish() -> str:
    lines = ["# Completion of irr for fish, made by `irr completion fish`."]
    for command in TABLE:
        lines.append(
            f"complete -c irr -n __fish_use_subcommand -f -a {command.name} -d"
            f" '{quoted(command.summary)}'"
        )
        for option, words in options_of(command.name):
            kind = "-l" if option.startswith("--") else "-s"
            lines.append(
                f"complete -c irr -n '__fish_seen_subcommand_from {command.name}'"
                f" {kind} {option.lstrip('-')} -d '{quoted(words)}'"
            )
        if words_of(command.name):
            lines.append(
                f"complete -c irr -n '__fish_seen_subcommand_from {command.name}' -f -a"
                f" '{' '.join(words_of(command.name))}'"
            )
    return "\n".join(lines) + "\n"
