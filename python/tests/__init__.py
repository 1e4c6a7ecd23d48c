"""Tests of the package. What needs the program, the package `cryptography` or Chromium is skipped where these are missing."""
import shutil
import sys
from typing import Optional

from soroban_files import program, wallet

BROWSERS = ("chromium", "chromium-browser", "google-chrome")
BROWSER: Optional[str] = next(filter(None, map(shutil.which, BROWSERS)), None)

for there, line in (
    (program.is_there(), f"tests over the program are skipped: there is none at {program.path_of()}"),
    (wallet.has_cryptography(), "tests of signatures are skipped: the package cryptography is missing"),
    (BROWSER, "the test of how a page looks is skipped: Chromium is missing"),
):
    if not there:
        print(line, file=sys.stderr)
