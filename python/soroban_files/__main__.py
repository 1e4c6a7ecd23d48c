"""`python3 -m soroban_files` is the command `soroban-files`."""
import sys

from .command import main

sys.exit(main())
