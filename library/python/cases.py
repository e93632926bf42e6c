"""What the tests of files share."""

import os
import tempfile
import unittest
from pathlib import Path

from keyset import Accepted, KeySet

# A whole course.
COURSE = (
    "add-ksk K1 - 13 0 0 yes",
    "add-zsk Z1 - 13 1 0 yes",
    "start algorithm-roll - K1,Z1 0",
    "report1 algorithm-roll 3600 100",
    "wait1 algorithm-roll 3700",
    "report2 algorithm-roll 60 3710",
    "wait2 algorithm-roll 3770",
    "done algorithm-roll",
)
# Each sync takes long on a busy disk.
MEMORY = "/dev/shm" if os.path.isdir("/dev/shm") else None


def add(keys: KeySet, number: int) -> Accepted:
    """Adds a key of this number."""
    return keys.add_key_zsk(f"Z{number}", algorithm=13, key_tag=number, creation=0)


class FileCase(unittest.TestCase):
    """A test with the path of a script in a folder of its own."""

    def setUp(self):
        folder = tempfile.TemporaryDirectory(dir=MEMORY)
        self.addCleanup(folder.cleanup)
        self.path = Path(folder.name) / "example.com.script"

    def begin(self, lines=()):
        """A key set with a file of these lines."""
        self.path.write_text("".join(f"{line}\n" for line in ("zone example.com", *lines)))
        keys = KeySet.open(self.path)
        self.addCleanup(keys.close)
        return keys
