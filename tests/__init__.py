"""The tests. At the top `pytest tests -k NAME` runs one by its name."""

import sys
from pathlib import Path

TOP = Path(__file__).resolve().parent.parent
# Nothing that they import is installed, and no file is left beside it.
sys.path[:0] = [str(TOP / of) for of in ("command", "library/python", "replay", "packaging")]
sys.dont_write_bytecode = True
