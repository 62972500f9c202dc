"""The program: `python3 postcard_types c FILE`, `python3 -m postcard_types python FILE`."""
import os
import sys

if __package__ in (None, ""):
    # At the end, so that no file beside this folder hides a module of Python.
    sys.path[:1] = []
    sys.path.append(os.path.dirname(os.path.dirname(os.path.abspath(__file__))))

from postcard_types.command import main  # noqa: E402

sys.exit(main(sys.argv[1:]))
