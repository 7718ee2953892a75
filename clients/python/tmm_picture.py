#!/usr/bin/env python3
"""`tmm_picture.py SCRIPT PICTURE`: the name that `tmm.picture` had, and its words."""

import sys

from tmm.picture import *  # noqa: F401, F403
from tmm.picture import main

if __name__ == "__main__":
    if len(sys.argv) != 3:
        print("usage: tmm_picture.py SCRIPT PICTURE", file=sys.stderr)
        sys.exit(2)
    sys.exit(main([sys.argv[1], "-o", sys.argv[2]]))
