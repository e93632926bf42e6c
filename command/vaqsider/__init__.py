"""The command of an operator: the proved key set with a clock, files and words for people."""

import sys
import warnings
from importlib.util import find_spec
from pathlib import Path

if find_spec("keyset") is None:
    sys.path.append(str(Path(__file__).resolve().parents[2] / "library" / "python"))

# That the program answers: it does for an operator, who makes a few calls.
warnings.filterwarnings("ignore", "libkeyset isn't there", RuntimeWarning)
