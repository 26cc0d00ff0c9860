"""Completions of rbhost's commands and options for bash, zsh and fish, made from the program's own help."""
import pathlib
import re
import subprocess

# Options whose value is a file; those of the others are not completed.
FILES = {"--from", "--metrics", "--out", "--program", "--tape"}

# Each command with its description, its options with their help, and the options that take a value.
Commands = dict[str, tuple[str, dict[str, str], set[str]]]


def help_of(program: str | pathlib.Path, *words: str) -> list[str]:
    """The lines of the program's help, or of a command's."""
    return subprocess.run([program, *words, "--help"], check=True, capture_output=True, text=True).stdout.splitlines()


def section(lines: list[str], title: str) -> list[str]:
    """Returns the lines below a title, up to the next one."""
    at = lines.index(title) + 1
    found = []
    for line in lines[at:]:
        if not line.startswith("  "):
            break
        found.append(line)
    return found


def commands_of(program: str | pathlib.Path) -> Commands:
    """Returns each command with its description, and its options with their help; options that take a value are in `valued`."""
    commands: Commands = {}
    for line in section(help_of(program), "Commands:"):
        name, does = line.split(maxsplit=1)
        options: dict[str, str] = {}
        valued: set[str] = set()
        if name != "help":
            for option in section(help_of(program, name), "Options:"):
                found = re.match(r"\s+(?:-\w, )?(--[\w-]+)( <[^>]+>)?\s+(.*)", option)
                if found:
                    options[found[1]] = found[3]
                    valued |= {found[1]} if found[2] else set()
        commands[name] = (does, options, valued)
    return commands


def bash(commands: Commands) -> str:
    """Returns the completions for bash: a command first, then its options or a file, commands after `help`, and files if an option takes one."""
    names = " ".join(name for name in commands if name != "help")
    cases = "\n".join(
        f"            {name}) words='{names if name == 'help' else ' '.join(options)}' ;;"
        for name, (_, options, _) in commands.items()
    )
    numbers = sorted({option for _, _, valued in commands.values() for option in valued} - FILES)
    return f"""# Completions of rbhost for bash, written by tools/install.
_rbhost() {{
    local here=${{COMP_WORDS[COMP_CWORD]}} before=${{COMP_WORDS[COMP_CWORD-1]}} words=
    COMPREPLY=()
    if [ "$here" = = ]; then
        here=
    elif [ "$before" = = ]; then
        before=${{COMP_WORDS[COMP_CWORD-2]}}
    fi
    case $before in
        {'|'.join(sorted(FILES))}) compopt -o filenames; COMPREPLY=($(compgen -f -- "$here")); return ;;
        {'|'.join(numbers)}) return ;;
    esac
    if [ "$COMP_CWORD" -eq 1 ]; then
        words='{' '.join(commands)} --help --version'
    else
        case ${{COMP_WORDS[1]}} in
{cases}
        esac
    fi
    if [ "$COMP_CWORD" -gt 1 ] && [ "${{COMP_WORDS[1]}}" != help ] && [ -n "$here" ] && [ "${{here#-}}" = "$here" ]; then
        compopt -o filenames; COMPREPLY=($(compgen -f -- "$here")); return
    fi
    COMPREPLY=($(compgen -W "$words" -- "$here"))
}}
complete -F _rbhost rbhost
"""


def quoted(text: str) -> str:
    """Returns text for single quotes, without characters that end them or that zsh interprets in a description."""
    return text.replace("'", "\u2019").replace("[", "(").replace("]", ")").replace(":", ",")


def zsh(commands: Commands) -> str:
    """Returns the completions for zsh: the same, with the description of each command and option."""
    names = "\n".join(f"        '{name}:{quoted(does)}'" for name, (does, _, _) in commands.items())
    cases = ["        help) (( CURRENT == 2 )) && _describe command commands ;;"]
    for name, (_, options, valued) in commands.items():
        if name == "help":
            continue
        takes = {
            option: (":file:_files" if option in FILES else ":number: ") if option in valued else ""
            for option in options
        }
        words = " ".join(
            f"'{option}{'=' if takes[option] else ''}[{quoted(does)}]{takes[option]}'"
            for option, does in options.items()
        )
        cases.append(f"        {name}) _arguments {words} ':file:_files' ;;")
    return f"""#compdef rbhost
# Completions of rbhost for zsh, written by tools/install.
_rbhost() {{
    local -a commands=(
{names}
    )
    if (( CURRENT == 2 )); then
        _describe command commands
        return
    fi
    local command=$words[2]
    shift words
    (( CURRENT-- ))
    case $command in
{chr(10).join(cases)}
    esac
}}
_rbhost "$@"
"""


def fish(commands: Commands) -> str:
    """Returns the completions for fish: the same."""
    lines = ["# Completions of rbhost for fish, written by tools/install.", "complete -c rbhost -f"]
    for name, (does, options, valued) in commands.items():
        lines.append(f"complete -c rbhost -n __fish_use_subcommand -a {name} -d '{quoted(does)}'")
        if name == "help":
            others = " ".join(it for it in commands if it != "help")
            lines.append(f"complete -c rbhost -n '__fish_seen_subcommand_from help' -a '{others}'")
        else:
            lines.append(f"complete -c rbhost -n '__fish_seen_subcommand_from {name}' -F")
        for option, what in options.items():
            takes = " -r -F" if option in FILES else " -x" if option in valued else ""
            lines.append(
                f"complete -c rbhost -n '__fish_seen_subcommand_from {name}' -l {option[2:]}{takes} -d '{quoted(what)}'"
            )
    return "\n".join(lines) + "\n"


def write(program: pathlib.Path, share: pathlib.Path) -> None:
    """Writes the completions for a program below the folder `share` of a prefix."""
    commands = commands_of(program)
    for name, text in (
        ("bash-completion/completions/rbhost", bash(commands)),
        ("zsh/site-functions/_rbhost", zsh(commands)),
        ("fish/vendor_completions.d/rbhost.fish", fish(commands)),
    ):
        path = share / name
        path.parent.mkdir(parents=True, exist_ok=True)
        path.write_text(text)
