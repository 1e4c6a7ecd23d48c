#!/usr/bin/env python3
"""Runs the kit's command `rt`, and has it sum the text of each crate, and list the crates below it, once.

python3 tools/quick_rt.py WORD..

`rt` tells by a sum whether a library is built from the text that is there. The sum of a crate has the sums of all crates that
it names, and rattle-kit-13b makes each of them anew each time: 546,000 sums for `soroban_top`, at about a millisecond each,
and several times in one command. It lists the crates below a crate in the same way. Here each sum and each list is made once
and kept until the command ends, so no text may change meanwhile: tools/prove.py calls this in copies of the repository. What is
proved, and how, stays the same. An `rt` that has other parts than these runs as it is.
"""
import importlib.machinery
import importlib.util
import os
import shutil
import sys


def with_sums_kept(file):
    """Returns the kit's command as a module that makes each sum once, or None if the file is not such a command."""
    with open(file, encoding="utf-8", errors="replace") as it:
        text = it.read()
    if not text.startswith("#!/usr/bin/env python3") or "rtlib" not in text or '__name__ == "__main__"' not in text:
        return None
    loader = importlib.machinery.SourceFileLoader("rt", file)
    rt = importlib.util.module_from_spec(importlib.util.spec_from_loader("rt", loader))
    loader.exec_module(rt)
    crate = getattr(getattr(rt, "rtlib", None), "Crate", None)
    if not hasattr(crate, "stamp") or not hasattr(crate, "below") or not hasattr(rt, "main"):
        return None
    make, sums = crate.stamp, {}
    find, lists = crate.below, {}

    def stamp(self):
        if self.folder not in sums:
            sums[self.folder] = make(self)
        return sums[self.folder]

    def below(self):
        if self.folder not in lists:
            lists[self.folder] = find(self)
        return list(lists[self.folder])

    crate.stamp, crate.below = stamp, below
    return rt


def main():
    found = shutil.which("rt")
    if not found:
        sys.exit("there is no command rt: it is part of the Rattle kit")
    sys.dont_write_bytecode = True
    rt = with_sums_kept(os.path.realpath(found))
    if rt is None:
        os.execv(found, [found, *sys.argv[1:]])
    return rt.main(sys.argv[1:])


if __name__ == "__main__":
    sys.exit(main())
