#!/usr/bin/env -S python3 -IS
"""The command as it is installed: a link to this file. Python finds the package beside the real
file, and starts in a quarter of the time without its site packages (-IS)."""

import os
import sys

if not __package__:
    sys.path[0:0] = [os.path.dirname(os.path.dirname(os.path.realpath(__file__)))]

try:
    from tibzharuk.command import main
except ImportError as error:
    sys.exit(f"tibzharuk: its package isn't beside {os.path.realpath(__file__)} (make a link to "
             f"this file, not a copy): {error}")

if __name__ == "__main__":
    sys.exit(main())
