"""Makes the pictures of docs/pictures anew, of the page that the tests look at.

    cd python && python3 -m tests.pictures

This needs the program, the package `cryptography` and Chromium. If pngquant is there, the pictures get smaller.
"""
from __future__ import annotations

import os
import shutil
import subprocess
import sys

from soroban_files.world import World
from tests import BROWSER
from tests.tables import REPOSITORY
from tests.test_explore import screenshot, trading_day

SIZE = "1360,2205"  # down to the last entry that changed


def main() -> None:
    if BROWSER is None:
        sys.exit("Chromium is missing")
    world = World()
    trading_day(world)
    for theme, name in (("light", "ledger.png"), ("dark", "ledger_dark.png")):
        path = os.path.join(REPOSITORY, "docs", "pictures", name)
        with open(path, "wb") as file:
            file.write(screenshot(BROWSER, world.page(theme), SIZE))
        if shutil.which("pngquant"):
            subprocess.run(["pngquant", "--force", "--ext", ".png", "128", path], check=True)


if __name__ == "__main__":
    main()
