#!/usr/bin/env python3
"""Runs examples with programs that are built, and compares what they print with the documents.

python3 tools/readme_examples.py PROGRAM          examples/run.sh and README.md
python3 tools/readme_examples.py --why PROGRAM WHY    examples/why.sh and docs/CONTRACTS.md; WHY is soroban_why

The README has the first example whole, and the end of the second one. The status is 1 if the output has other lines.
"""
import difflib
import os
import pathlib
import shutil
import subprocess
import sys
import tempfile

TOP = pathlib.Path(__file__).resolve().parent.parent
# The sentences of the README above the two blocks.
FIRST, SECOND = "the first command prints\n", "This ends with\n"
# That of docs/CONTRACTS.md.
WHY = "`sh examples/why.sh` prints\n"
# What the examples use of xxd, for machines without it.
XXD = """#!{python}
import sys
words = sys.argv[1:]
if "-r" in words:
    sys.stdout.buffer.write(bytes.fromhex(sys.stdin.read()))
else:
    digits, width = open(words[-1], "rb").read().hex(), 2 * int(words[words.index("-c") + 1] if "-c" in words else 30)
    print(*(digits[at : at + width] for at in range(0, len(digits), width)), sep="\\n")
"""


def block_below(sentence, page="README.md"):
    """Returns the lines of the first block below a sentence of a document."""
    text = (TOP / page).read_text(encoding="utf-8")
    return text.partition(sentence)[2].partition("```text\n")[2].partition("```")[0].split("\n")[:-1]


def run_examples(script, programs):
    """Returns the lines that a script of examples/ prints. The programs are variables of its environment."""
    with tempfile.TemporaryDirectory() as folder:
        path = os.environ.get("PATH", "/usr/bin:/bin")
        if not shutil.which("xxd"):
            tool = pathlib.Path(folder, "xxd")
            tool.write_text(XXD.format(python=sys.executable), encoding="utf-8")
            tool.chmod(0o755)
            path = folder + os.pathsep + path
        how = {"env": {**os.environ, "PATH": path, **programs}, "stdin": subprocess.DEVNULL, "cwd": TOP}
        ran = subprocess.run(["sh", script], stdout=subprocess.PIPE, stderr=subprocess.STDOUT, text=True, **how)
    if ran.returncode:
        sys.exit(ran.stdout + f"{script} ends with status {ran.returncode}")
    return ran.stdout.split("\n")[:-1]


def compare(page, script, pairs):
    """Prints what differs between the lines of a document and those that came. Returns the status."""
    for wanted, came in pairs:
        if not wanted or wanted != came:
            print(*difflib.unified_diff(wanted, came, page, script, lineterm=""), sep="\n")
            return 1
    print(f"{script} prints what {page} has")
    return 0


def main():
    programs = [os.path.abspath(word) for word in sys.argv[1:] if word != "--why"]
    if sys.argv[1:2] == ["--why"] and len(programs) == 2:
        lines = run_examples("examples/why.sh", {"SOROBAN": programs[0], "SOROBAN_WHY": programs[1]})
        return compare("docs/CONTRACTS.md", "examples/why.sh", [(block_below(WHY, "docs/CONTRACTS.md"), lines)])
    if len(sys.argv) != 2 or len(programs) != 1:
        sys.exit(__doc__)
    lines = run_examples("examples/run.sh", {"SOROBAN": programs[0]})
    first, second = block_below(FIRST), block_below(SECOND)
    at = lines.index(first[0]) if first and first[0] in lines else 0
    return compare("README.md", "examples/run.sh", [(first, lines[at : at + len(first)]), (second, lines[-len(second) :])])


if __name__ == "__main__":
    sys.exit(main())
