"""Completions of the commands for bash, zsh and fish, made of their manual pages."""

import shlex
from pathlib import Path

from catalog.commands import COMMANDS, Command
from catalog.options import Option, about, options, words
from tools.words import PROFILES

# Values that are paths: their names in the pages, and whether these are of folders.
PATHS = {"FILE": False, "SCRIPT": False, "PLAN": False, "PROGRAM": False, "ARCHIVE": False, "FOLDER": True, "DIR": True, "LEAGUE": True}
# Where the completions of a shell are looked for, below `share`.
PLACES = {"bash": "bash-completion/completions", "zsh": "zsh/site-functions", "fish": "fish/vendor_completions.d"}


def files() -> dict[str, str]:
    """The files of all shells, each with its text, by their places below `share`."""
    found: dict[str, str] = {}
    for command in COMMANDS:
        found[f"{PLACES['bash']}/{command.name}"] = for_bash(command)
        found[f"{PLACES['zsh']}/_{command.name}"] = for_zsh(command)
        found[f"{PLACES['fish']}/{command.name}.fish"] = for_fish(command)
    return found


def write(folder: Path) -> list[str]:
    """Writes the files of all shells below a folder. Answers their places there."""
    texts = files()
    for place, text in texts.items():
        (folder / place).parent.mkdir(parents=True, exist_ok=True)
        (folder / place).write_text(text, encoding="utf-8")
    return list(texts)


def values(option: Option) -> tuple[str, ...]:
    """The values of an option, if they can be listed."""
    return PROFILES if option.value == "PROFILE" else option.values


def for_bash(command: Command) -> str:
    """The completion of a command for bash."""
    function = "_" + command.name.replace("-", "_")
    cases = [bash_case(option) for option in options(command) if option.value]
    forms = " ".join(form for option in options(command) for form in option.forms)
    return f"""# {command.name}: {about(command)}
{function}() {{
    local word=${{COMP_WORDS[COMP_CWORD]}}
    COMPREPLY=()
    case ${{COMP_WORDS[COMP_CWORD - 1]}} in
{"".join(cases)}    esac
    case $word in
        -*) mapfile -t COMPREPLY < <(compgen -W "{forms}" -- "$word") ;;
        *) {bash_words(command)}mapfile -t -O "${{#COMPREPLY[@]}}" COMPREPLY < <(compgen -d -- "$word"; compgen -f -X '!*.r' -- "$word") ;;
    esac
}}
complete -o filenames -F {function} {command.name}
"""


def bash_case(option: Option) -> str:
    """What follows an option that takes a value."""
    if values(option):
        what = f'mapfile -t COMPREPLY < <(compgen -W "{" ".join(values(option))}" -- "$word"); '
    elif option.value in PATHS:
        what = f'mapfile -t COMPREPLY < <(compgen -{"d" if PATHS[option.value] else "f"} -- "$word"); '
    else:
        what = ""
    return f"        {' | '.join(option.forms)}) {what}return ;;\n"


def bash_words(command: Command) -> str:
    """What comes before the files: the word that says what is to be done, if there is such a word."""
    names = " ".join(name for name, _ in words(command))
    return f'[ "$COMP_CWORD" -gt 1 ] || mapfile -t COMPREPLY < <(compgen -W "{names}" -- "$word"); ' if names else ""


def for_zsh(command: Command) -> str:
    """The completion of a command for zsh."""
    names = " ".join(name for name, _ in words(command))
    first = [shlex.quote(f"1:what to do:({names})")] if names else []
    lines = [line for option in options(command) for line in zsh_option(option)]
    rest = "'*:robot:_files -g \"*.r(-.) *(-/)\"'"
    return f"#compdef {command.name}\n_arguments \\\n    " + " \\\n    ".join([*lines, *first, rest]) + "\n"


def zsh_option(option: Option) -> list[str]:
    """The forms of an option, each with what it does, and its value."""
    text = option.about.replace("[", "(").replace("]", ")").replace(":", ",")
    value = f":{option.value}:{zsh_values(option)}" if option.value else ""
    others = f"({' '.join(option.forms)})" if len(option.forms) > 1 else ""
    return [shlex.quote(f"{others}{form}[{text}]{value}") for form in option.forms]


def zsh_values(option: Option) -> str:
    if values(option):
        return f"({' '.join(values(option))})"
    return {None: " ", False: "_files", True: "_files -/"}[PATHS.get(option.value)]


def for_fish(command: Command) -> str:
    """The completion of a command for fish."""
    lines = [fish_line(command, "-k -f -a", '"(__fish_complete_suffix .r)"')]
    names = [name for name, _ in words(command)]
    for name, text in words(command):
        only_first = f"-n 'not __fish_seen_subcommand_from {' '.join(names)}'"
        lines.append(fish_line(command, f"{only_first} -a", name, text))
    for option in options(command):
        lines.append(fish_line(command, fish_forms(option), "", option.about))
    return f"# {command.name}: {about(command)}\n" + "".join(lines)


def fish_line(command: Command, words_before: str, value: str = "", text: str = "") -> str:
    said = f" -d {shlex.quote(text)}" if text else ""
    return f"complete -c {command.name} {words_before}{' ' + value if value else ''}{said}\n"


def fish_forms(option: Option) -> str:
    """The forms of an option, and how its value is completed."""
    forms = [f"-l {form[2:]}" if form.startswith("--") else f"-s {form[1:]}" for form in option.forms]
    if values(option):
        forms.append(f"-x -a '{' '.join(values(option))}'")
    elif option.value:
        forms.append({None: "-x", False: "-r", True: "-x -a '(__fish_complete_directories)'"}[PATHS.get(option.value)])
    return " ".join(forms)
