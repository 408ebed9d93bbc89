"""Lets a measurement import the harness of `tests/`, whose folder it adds to the path."""

import pathlib
import sys

sys.path.append(str(pathlib.Path(__file__).resolve().parent.parent / "tests"))
