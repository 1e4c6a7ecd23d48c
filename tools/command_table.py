#!/usr/bin/env python3
"""Makes the pages about the command line from one table, tools/commands.json.

python3 tools/command_table.py help [COMMAND]     what `soroban help` prints
python3 tools/command_table.py man                the page soroban.1
python3 tools/command_table.py bash               completions for bash
python3 tools/command_table.py zsh                completions for zsh
python3 tools/command_table.py check [PROGRAM]    says whether the README has the table's usage lines, and whether the
                                                  program knows the table's options: it must reject a command if one of them
                                                  is left out, twice there, out of its range, or together with one that
                                                  it excludes. The status is 1 if not.
python3 tools/command_table.py check-other NAME PROGRAM    says the same of a command that is a program of its own
"""
import json
import pathlib
import resource
import subprocess
import sys
import tempfile

HERE = pathlib.Path(__file__).resolve().parent
README = HERE.parent / "README.md"
WIDTH = 100


def load():
    return json.loads((HERE / "commands.json").read_text(encoding="utf-8"))


def all_commands(table):
    """Returns the commands of the program, and those that are programs of their own."""
    return [*table["commands"], *table["others"]]


def find(table, name):
    """Returns the command of this name, or None."""
    return next((command for command in all_commands(table) if command["name"] == name), None)


def forms(command):
    """Returns the command in each of its forms: with its options, and with others in place of some of them."""
    instead = command.get("instead")
    if instead is None:
        return [command]
    kept = [option for option in command["options"] if option["name"] not in instead["of"]]
    return [command, {**command, "options": [*instead["options"], *kept]}]


def form_of(command, names):
    """Returns the form of a command that has options of these names: the other one, if one of them is in its place alone."""
    instead = {option["name"] for option in command.get("instead", {"options": []})["options"]}
    return forms(command)[1 if instead.intersection(names) else 0]


def all_options(command):
    """Returns the options of all forms of a command."""
    return [*command["options"], *command.get("instead", {"options": []})["options"]]


def name_words(command):
    """Returns the words before a command's options: its name, or none if it is a program of its own."""
    return [] if "program" in command else [command["name"]]


def is_flag(option):
    return "value" not in option


def is_optional(option):
    """Says whether the option may be left out."""
    return is_flag(option) or option.get("optional", False)


def shown(option):
    """Returns the option as a usage line has it."""
    words = f"--{option['name']}" + ("" if is_flag(option) else f" {option['value']}")
    return f"[{words}]" if is_optional(option) else words


def usage(table, command):
    return " ".join([command.get("program", table["program"]), *name_words(command), *map(shown, command["options"])])


def limits(option):
    """Returns a remark on the option's values, or an empty text."""
    if "least" in option:
        return f" ({option['least']} to {option['greatest']})"
    return {"read": " (input)", "store": " (output)", None: ""}[option.get("access")]


def wrap(words, first, rest):
    """Returns the words in lines. The first line begins with `first`, and the others with `rest`."""
    lines = []
    line = first
    for word in words:
        if len(line) + len(word) + 1 > WIDTH and line.strip():
            lines.append(line.rstrip())
            line = rest
        line += word + " "
    return "\n".join([*lines, line.rstrip()]) + "\n"


# Help.


def help_of(table, command):
    """Returns the help of one command."""
    text = ""
    for form in forms(command):
        usage_words = ["soroban", command["name"], *map(shown, form["options"])]
        text += wrap(usage_words, "       " if text else "usage: ", "    ")
    text += f"\nIt {command['about']}.\n\n"
    wide = max(len(shown(option).strip("[]")) for option in all_options(command)) + 2
    for option in all_options(command):
        text += f"  {shown(option).strip('[]'):{wide}}{option['about']}{limits(option)}\n"
    return text


def help_of_all(table):
    """Returns the help of the whole program."""
    text = "usage: soroban COMMAND OPTIONS\n       soroban help [COMMAND]\n       soroban version\n\n"
    wide = max(len(command["name"]) for command in all_commands(table)) + 2
    for command in all_commands(table):
        text += f"  {command['name']:{wide}}{command['about']}\n"
    text += "\n"
    for sentence in table["description"]:
        text += wrap(sentence.split(), "", "")
    others = "".join(f", or `{it['program']}` for `{it['name']}`" for it in table["others"])
    text += f"`soroban` tests the options, the files and the close time, and then runs `{table['program']}`{others}.\n\n"
    for code, about in table["codes"]:
        text += f"  status {code}: {about}\n"
    return text


# The man page.


def troff(text):
    """Returns the text with the characters that troff reads as words of its own replaced."""
    text = text.replace("\\", "\\e").replace("-", "\\-")
    return "\\&" + text if text.startswith((".", "'")) else text


def man_page(table):
    lines = [f'.TH SOROBAN 1 "" "{table["program"]}" "User Commands"', ".SH NAME"]
    programs = ", ".join(["soroban", table["program"], *(it["program"] for it in table["others"])])
    lines += [f"{troff(programs)} \\- {troff(table['about'])}", ".SH SYNOPSIS", ".nf"]
    for command in all_commands(table):
        for form in forms(command):
            lines += [f".B soroban {command['name']}", troff(" ".join(map(shown, form["options"])))]
    lines += [".B soroban help\n[COMMAND]", ".B soroban version", ".fi", ".SH DESCRIPTION"]
    lines += map(troff, table["description"])
    lines += [".PP", ".B soroban", "tests the options, the files and the close time, and then runs"]
    lines += [f".BR {troff(table['program'])} ,", "the proved program, with the same words.", ".SH COMMANDS"]
    for command in all_commands(table):
        lines += [f".SS {command['name']}", troff(f"It {command['about']}.")]
        if "program" in command:
            lines += [f".BR {troff(command['program'])} ,", "a program of its own, takes these options without the name of the command."]
        for option in all_options(command):
            lines += [".TP", f".B {troff(shown(option).strip('[]'))}", troff(option["about"] + limits(option))]
    lines.append(".SH EXIT STATUS")
    for code, about in table["codes"]:
        lines += [".TP", f".B {code}", troff(about)]
    lines += [".SH ENVIRONMENT", ".TP", ".B SOROBAN_CMD", "names another program to run"]
    for command in table["others"]:
        lines += [".TP", f".B {command['program'].upper()}", f"names another program to run for {command['name']}"]
    return "\n".join(lines) + "\n"


# Completions.


def bash_completions(table):
    """Returns the completions for bash. A file name is completed by bash itself."""
    names = " ".join(command["name"] for command in table["commands"])
    others = " ".join(command["name"] for command in table["others"])
    alone = "".join(f'    [ "${{1##*/}}" = {it["program"]} ] && command={it["name"]} first=1\n' for it in table["others"])
    programs = " ".join(["soroban", table["program"], *(it["program"] for it in table["others"])])
    cases = ""
    values = ""
    for command in all_commands(table):
        options = " ".join(f"--{option['name']}" for option in all_options(command))
        cases += f'        {command["name"]}) words="{options}" ;;\n'
        for option in all_options(command):
            if "words" in option:
                values += f'        {command["name"]}--{option["name"]}) words="{" ".join(option["words"])}" ;;\n'
            elif "least" in option:
                values += f'        {command["name"]}--{option["name"]}) return ;;\n'
            elif not is_flag(option):
                values += f'        {command["name"]}--{option["name"]}) COMPREPLY=($(compgen -f -- "$word")) && return ;;\n'
    return f"""\
# Completions of {programs} for bash. tools/command_table.py made this file.
_soroban() {{
    local word=${{COMP_WORDS[COMP_CWORD]}} command=${{COMP_WORDS[1]}} before=${{COMP_WORDS[COMP_CWORD - 1]}} words= first=2 it
    COMPREPLY=()
{alone}    if [ "$COMP_CWORD" -lt "$first" ]; then
        words="{names}"
        [ "${{1##*/}}" = soroban ] && words="$words {others} help version"
        COMPREPLY=($(compgen -W "$words" -- "$word"))
        return
    fi
    case $command$before in
        helphelp) words="{names} {others}" ;;
{values}    esac
    if [ -n "$words" ]; then
        COMPREPLY=($(compgen -W "$words" -- "$word"))
        return
    fi
    case $command in
{cases}    esac
    # Each option stands once.
    for it in "${{COMP_WORDS[@]:first:COMP_CWORD-first}}"; do
        words=" $words "
        words=${{words/ $it / }}
    done
    COMPREPLY=($(compgen -W "$words" -- "$word"))
}}
complete -F _soroban {programs}
"""


def zsh_quoted(text):
    return "'" + text.replace("'", "'\\''") + "'"


def zsh_action(option):
    """Returns what _arguments completes behind the option."""
    if is_flag(option):
        return ""
    if "words" in option:
        return f":{option['name']}:({' '.join(option['words'])})"
    return f":{option['name']}:" if "least" in option else f":{option['name']}:_files"


def zsh_completions(table):
    programs = " ".join(["soroban", table["program"], *(it["program"] for it in table["others"])])
    text = f"#compdef {programs}\n# tools/command_table.py made this file.\n\n_soroban() {{\n"
    for command in table["others"]:
        text += f"    [[ ${{words[1]:t}} == {command['program']} ]] && "
        text += f"words=(soroban {command['name']} \"${{(@)words[2,-1]}}\") && (( CURRENT++ ))\n"
    text += "    local -a commands others\n"
    for name, listed in (("commands", table["commands"]), ("others", table["others"])):
        text += f"    {name}=(\n"
        for command in listed:
            text += f"        {zsh_quoted(command['name'] + ':' + command['about'])}\n"
        text += "    )\n"
    text += "    if (( CURRENT == 2 )); then\n"
    text += "        [[ ${words[1]:t} == soroban ]] && commands+=($others 'help:prints help' 'version:prints what is installed')\n"
    text += "        _describe command commands\n        return\n    fi\n    local command=$words[2]\n"
    text += "    shift words\n    (( CURRENT-- ))\n    case $command in\n"
    text += "        help) commands+=($others) && _describe command commands ;;\n"
    for command in all_commands(table):
        text += f"        {command['name']})\n            _arguments \\\n"
        rows = [zsh_quoted(f"--{it['name']}[{it['about']}]{zsh_action(it)}") for it in all_options(command)]
        text += " \\\n".join(" " * 16 + row for row in rows) + "\n            ;;\n"
    return text + '    esac\n}\n\n_soroban "$@"\n'


# The check.


def sample(option, folder, number):
    """Returns a right value of the option. Names of files differ."""
    if "words" in option:
        return option["words"][0]
    return str(option["least"]) if "least" in option else f"{folder}/{number}"


def together(command):
    """Returns lists of options that may stand together: those that exclude none, and each of the others with what it allows."""
    options = command["options"]
    lists = [[it for it in options if "excludes" not in it]]
    for option in options:
        if "excludes" in option:
            others = [it for it in lists[0] if option["excludes"] not in (it["name"], it.get("needs"))]
            lists.append([it for it in options if it is option or it in others])
    return lists


def excluding(command):
    """Returns the pairs of options of which the first excludes the second."""
    named = {it["name"]: it for it in command["options"]}
    return [(it, named[it["excludes"]]) for it in command["options"] if "excludes" in it]


def wrong_words(command, options, right):
    """Returns commands that the program has to reject, made of a right one: (what is wrong, words)."""
    before = name_words(command)
    rows = [("an option that is not there", [*before, *sum(right, []), "--no-such-option"])]
    for i, option in enumerate(options):
        others = [words for j, words in enumerate(right) if j != i]
        name = f"--{option['name']}"
        rows.append((f"{name} twice", [*before, *sum(right, []), *right[i]]))
        if is_flag(option):
            continue
        bad = ["x" * 9] if "words" in option else [""]
        if "least" in option:
            bad += [str(option["greatest"] + 1), "x"] + ([str(option["least"] - 1)] if option["least"] else [])
        if not is_optional(option) or any(it.get("needs") == option["name"] for it in options):
            rows.append((f"no {name}", [*before, *sum(others, [])]))
        rows += [(f"{name} {value!r}", [*before, *sum(others, []), f"{name}={value}"]) for value in bad]
    return rows


def is_usage(program, words):
    """Says whether a program rejects these words. It does so at once; a larger `gen` takes longer, so its words are right."""

    def end_soon():
        resource.setrlimit(resource.RLIMIT_CPU, (1, 1))

    ran = subprocess.run([program, *words], stdout=subprocess.PIPE, stderr=subprocess.DEVNULL, preexec_fn=end_soon, check=False)
    return ran.stdout == b"usage\n"


def check_options(command, given, program, folder):
    """Returns what a program does otherwise than the table says of a command, where these of its options stand together."""
    faults, before = [], name_words(command)
    options = [it for it in given if not is_flag(it)]
    right = [[f"--{it['name']}", sample(it, folder, number)] for number, it in enumerate(options)]
    flags = [[f"--{it['name']}"] for it in given if is_flag(it)]
    for option, words in zip(options, right):
        # Numbers at both ends of their range, and each of an option's words.
        values = option.get("words") or ([str(option["least"]), str(option["greatest"])] if "least" in option else [])
        for value in values:
            others = [it for it in right if it is not words]
            if is_usage(program, [*before, *sum(others, []), f"--{option['name']}={value}"]):
                faults.append(f"{command['name']}: the program rejects --{option['name']} {value}")
    if is_usage(program, [*before, *sum(right + flags, [])]):
        faults.append(f"{command['name']}: the program rejects all options together")
    if is_usage(program, [*before, *sum((words for it, words in zip(options, right) if not is_optional(it)), [])]):
        faults.append(f"{command['name']}: the program rejects the options that are needed")
    ordered = [[f"--{it['name']}", sample(it, folder, n)] if not is_flag(it) else [f"--{it['name']}"] for n, it in enumerate(given)]
    for what, words in wrong_words(command, given, ordered):
        if not is_usage(program, words):
            faults.append(f"{command['name']}: the program accepts {what}")
    for option, other in excluding(command):
        both = [*before, *sum(ordered, []), f"--{other['name']}", sample(other, folder, 99)]
        if option in given and not is_usage(program, both):
            faults.append(f"{command['name']}: the program accepts --{option['name']} together with --{other['name']}")
    return faults


def check_commands(commands, wrong, program):
    """Returns what a program does otherwise than the table says of its commands, or with these wrong words."""
    faults = []
    with tempfile.TemporaryDirectory() as folder:
        for command in commands:
            for given in together(command):
                faults += check_options(command, given, program, folder)
        for words in wrong:
            if not is_usage(program, words):
                faults.append(f"the program accepts {' '.join(words) or 'no words'}")
    return faults


def check_program(table, program):
    """Returns what the program does otherwise than the table says."""
    return check_commands(table["commands"], ([], ["help"], ["version"], ["--help"]), program)


def check_other(command, program):
    """Returns what a command that is a program of its own does otherwise than the table says."""
    return check_commands(forms(command), ([], ["help"], [command["name"]]), program)


def check_readme(table):
    """Returns what the README has otherwise than the table."""
    text = README.read_text(encoding="utf-8")
    programs = tuple(f"{name} " for name in (table["program"], *(it["program"] for it in table["others"])))
    lines = [line for line in text.split("\n") if line.startswith(programs)]
    wanted = [usage(table, form) for command in all_commands(table) for form in forms(command)]
    return [f"README.md has no line: {line}" for line in wanted if line not in lines] + [
        f"README.md has a line that tools/commands.json does not have: {line}" for line in lines if line not in wanted
    ]


def check(table, programs):
    faults = check_readme(table)
    for program in programs:
        faults += check_program(table, program)
    if faults:
        sys.exit("\n".join(faults))
    agreeing = " and ".join(["README.md", *map(str, programs)])
    print(f"tools/commands.json agrees with {agreeing}: {len(table['commands'])} commands")


def main(words):
    table = load()
    if words == ["help"]:
        sys.stdout.write(help_of_all(table))
    elif words[:1] == ["help"] and len(words) == 2 and find(table, words[1]):
        sys.stdout.write(help_of(table, find(table, words[1])))
    elif words in (["man"], ["bash"], ["zsh"]):
        sys.stdout.write({"man": man_page, "bash": bash_completions, "zsh": zsh_completions}[words[0]](table))
    elif words[:1] == ["check"] and len(words) <= 2:
        check(table, words[1:])
    elif words[:1] == ["check-other"] and len(words) == 3 and "program" in (find(table, words[1]) or {}):
        faults = check_other(find(table, words[1]), words[2])
        if faults:
            sys.exit("\n".join(faults))
        print(f"tools/commands.json agrees with {words[2]}: {words[1]}")
    else:
        sys.exit(__doc__)


if __name__ == "__main__":
    main(sys.argv[1:])
