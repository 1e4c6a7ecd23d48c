#!/usr/bin/env python3
"""soroban: tests a command, and then runs soroban_cmd with the same words, or soroban_why for `soroban why`.

The programs themselves say only `usage` to wrong words, and take names of files as text. So this says which word is wrong,
rejects two names of one file, input files that cannot be read, and a close time before the ledger's.

tools/install.sh installs this. Here in the repository it runs the programs that the build left. SOROBAN_CMD and SOROBAN_WHY
name others.
"""
import difflib
import hashlib
import json
import os
import pathlib
import stat
import struct
import sys

sys.dont_write_bytecode = True
import command_table

HERE = pathlib.Path(__file__).resolve().parent
INSTALLED = HERE / "installed.json"
REJECTED = 9


def reject(why):
    print(f"soroban: {why}", file=sys.stderr)
    sys.exit(REJECTED)


def near(name, names):
    """Returns a remark with the name that may be meant."""
    close = difflib.get_close_matches(name, names, 1)
    return f"; is {close[0]} meant?" if close else ""


def program(name):
    """Returns the path of a program."""
    if name.upper() in os.environ:
        return pathlib.Path(os.environ[name.upper()])
    if INSTALLED.exists():
        return HERE.parent.parent / "bin" / name
    return HERE.parent / "crates" / name / "out" / name


def version_of(name, facts):
    """Returns the lines of a program that is there. The facts are those of the installation, or none."""
    path = program(name)
    digest = hashlib.sha256(path.read_bytes()).hexdigest()
    if not facts or path != HERE.parent.parent / "bin" / name:
        return f"{name}, not installed by tools/install.sh\nprogram {path}\nsha256 {digest}\n"
    if digest != facts["sha256"].get(name):
        reject(f"{path} is not the program that was installed, which has sha256 {facts['sha256'].get(name)}")
    return f"{name}, {facts['proof']}\nprogram {path}\nsha256 {digest}\n"


def version(table):
    """Returns what is installed: each program with the kit that built it, and its hash, and the text of the repository."""
    if not program(table["program"]).exists():
        reject(f"there is no program {program(table['program'])}")
    facts = json.loads(INSTALLED.read_text(encoding="utf-8")) if INSTALLED.exists() else {}
    names = [table["program"], *(it["program"] for it in table["others"] if program(it["program"]).exists())]
    text = "".join(version_of(name, facts) for name in names)
    return text + (f"commit {facts['commit']}\n" if facts else "")


def form_of(command, words):
    """Returns the form of a command that the words are of."""
    return command_table.form_of(command, [word[2:].partition("=")[0] for word in words if word.startswith("--")])


def read_options(command, words):
    """Returns the value of each option, and of a flag True. Words are read as the program reads them."""
    named = {option["name"]: option for option in command_table.all_options(command)}
    known = {option["name"]: option for option in form_of(command, words)["options"]}
    values = {}
    rest = iter(words)
    for word in rest:
        if word == "--" and next(rest, None) is None:
            break
        if not word.startswith("--"):
            reject(f"{word} is no option")
        name, equals, value = word[2:].partition("=")
        if name not in named:
            reject(f"{command['name']} has no option --{name}{near(name, named)}")
        if name not in known:
            reject(f"--{name} does not go with the other options; see soroban help {command['name']}")
        if name in values:
            reject(f"--{name} stands there twice")
        if command_table.is_flag(known[name]):
            if equals:
                reject(f"--{name} takes no value")
            value = True
        elif not equals:
            value = next(rest, None)
            if value is None:
                reject(f"--{name} lacks its value")
            if value.startswith("-") and value != "-":
                reject(f"--{name} lacks its value; one that begins with - is written --{name}={value}")
        values[name] = value
    for name, option in known.items():
        if name not in values and not command_table.is_optional(option):
            reject(f"{command['name']} needs {command_table.shown(option)}")
        if name in values and option.get("needs", name) not in values:
            reject(f"--{name} needs {command_table.shown(known[option['needs']]).strip('[]')}")
        if name in values and option.get("excludes") in values:
            reject(f"--{name} and --{option['excludes']} exclude each other")
    return values


def number_of(value):
    """Returns the number that a value means, or -1 if it is none. Python reads no more than some thousand digits."""
    if not value.isascii() or not value.isdigit():
        return -1
    digits = value.lstrip("0") or "0"
    return int(digits) if len(digits) <= 20 else 10**20


def check_value(option, value):
    """Tests a value that is no name of a file."""
    if "words" in option and value not in option["words"]:
        reject(f"--{option['name']} is one of {', '.join(option['words'])}, and not {value}")
    if "least" in option:
        if not option["least"] <= number_of(value) <= option["greatest"]:
            reject(f"--{option['name']} is a number from {option['least']} to {option['greatest']}, and not {value or 'empty'}")


def check_input(name, path):
    """Tests that the file can be read at any offset."""
    try:
        # A pipe is not opened: that would wait for its other end.
        if not stat.S_ISREG(os.stat(path).st_mode):
            reject(f"--{name}: {path} is no regular file, so it cannot be read at any offset")
        with open(path, "rb"):
            pass
    except OSError as error:
        reject(f"--{name}: {path} cannot be read: {error.strerror}")


def check_output(name, path):
    """Tests that a file can be stored there. Nothing is stored yet."""
    folder = os.path.dirname(path) or "."
    if os.path.exists(path):
        if not os.path.isfile(path) or not os.access(path, os.W_OK):
            reject(f"--{name}: {path} is no file that can be stored")
    elif not os.path.isdir(folder) or not os.access(folder, os.W_OK):
        reject(f"--{name}: {folder} is no folder in which a file can be stored")


def is_same_file(one, other):
    """Says whether two names are of one file, also of one that is not there yet."""
    if os.path.realpath(one) == os.path.realpath(other):
        return True
    return os.path.exists(one) and os.path.exists(other) and os.path.samefile(one, other)


def check_files(options, values):
    files = [(option, values[option["name"]]) for option in options if "access" in option and option["name"] in values]
    for option, path in files:
        if not path:
            reject(f"--{option['name']} has an empty name")
        (check_input if option["access"] == "read" else check_output)(option["name"], path)
    for i, (option, path) in enumerate(files):
        for other, other_path in files[:i]:
            if is_same_file(path, other_path):
                reject(f"--{other['name']} and --{option['name']} are the same file: {other_path} and {path}")


def close_time_of(path):
    """Returns the close time in a ledger's file, or None if this cannot be one."""
    with open(path, "rb") as file:
        head = file.read(52)
    # The version, the network, from version 2 on the protocol, and the ledger's number stand before the time.
    offset = {b"\0\0\0\1": 40, b"\0\0\0\2": 44}.get(head[:4])
    if offset is None or len(head) < offset + 8:
        return None
    return struct.unpack_from(">Q", head, offset)[0]


def check_times(values):
    """Rejects a close time before the ledger's, which the program takes as it takes any other."""
    if "close-time" in values and "ledger" in values:
        before = close_time_of(values["ledger"])
        if before is not None and number_of(values["close-time"]) < before:
            reject(f"--close-time {values['close-time']} is before the ledger's close time {before}")


def help_text(table, names):
    """Returns the help of a command, or of all."""
    if not names:
        return command_table.help_of_all(table)
    command = command_table.find(table, names[0])
    if command is None or len(names) > 1:
        reject(f"there is no command {' '.join(names)}" + near(names[0], [it["name"] for it in command_table.all_commands(table)]))
    return command_table.help_of(table, command)


def main(words):
    table = command_table.load()
    if words[:1] in (["help"], ["--help"], ["-h"]):
        sys.stdout.write(help_text(table, words[1:]))
        return
    if words in (["version"], ["--version"]):
        sys.stdout.write(version(table))
        return
    if not words:
        sys.stderr.write(command_table.help_of_all(table))
        sys.exit(REJECTED)
    command = command_table.find(table, words[0])
    if command is None:
        names = [it["name"] for it in command_table.all_commands(table)] + ["help", "version"]
        reject(f"there is no command {words[0]}" + near(words[0], names))
    if words[1:] in (["--help"], ["-h"]):
        sys.stdout.write(command_table.help_of(table, command))
        return
    values = read_options(command, words[1:])
    options = command_table.all_options(command)
    for option in options:
        if not command_table.is_flag(option) and option["name"] in values:
            check_value(option, values[option["name"]])
    check_files(options, values)
    check_times(values)
    path = program(command.get("program", table["program"]))
    try:
        os.execv(path, [str(path), *command_table.name_words(command), *words[1:]])
    except OSError as error:
        reject(f"{path} does not run: {error.strerror}")


if __name__ == "__main__":
    main(sys.argv[1:])
