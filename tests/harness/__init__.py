"""What trials of built programs share. It also finds `c_library.py`, which is in `dev/`."""

import pathlib
import sys

sys.path.append(str(pathlib.Path(__file__).resolve().parent.parent.parent / "dev"))
