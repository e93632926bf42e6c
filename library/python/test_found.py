"""Which library the package takes, from wherever it stands. It is never in silence replaced by the
program. KEYSET_LIBRARY names the library that is tried here."""

import os
import shutil
import subprocess
import sys
import tempfile
import unittest
from pathlib import Path

HERE = Path(__file__).resolve().parent
LIBRARY = os.environ.get("KEYSET_LIBRARY", "")
CC = os.environ.get("CC", "cc")
PROGRAMS = os.environ.get("KEYSET_PROGRAMS") or HERE.parents[1] / "crates" / "keyset" / "out"
NAME = "libkeyset.so.3"
ASK = "import keyset; print(type(keyset.open_session('zone example.com')).__name__)"
# As on a system whose loader knows no such library.
NONE = "import ctypes; from unittest import mock; mock.patch('ctypes.CDLL', side_effect=OSError)"
UNKNOWN = f"{NONE}.start(); "
# What a program writes that is called with each word.
RUN = "from keyset.programs import run; print([run(word, []) for word in ('', 'status', 'notes')])"
BY_LIBRARY, BY_PROGRAMS = ("LibrarySession\n", ""), ("ProgramSession\n", "")


@unittest.skipUnless(LIBRARY, "KEYSET_LIBRARY names none")
class LibraryPlaceTests(unittest.TestCase):
    def setUp(self):
        folder = tempfile.TemporaryDirectory()
        self.addCleanup(folder.cleanup)
        self.top = Path(folder.name)
        self.package = self.top / "share" / "vaqsider" / "keyset"
        shutil.copytree(HERE / "keyset", self.package)

    def asked(self, text=ASK, **environment):
        """What Python writes, and the last line that it says on standard error."""
        given = {**os.environ, "PATH": f"{PROGRAMS}:{os.environ['PATH']}"}
        given = {name: of for name, of in given.items() if not name.startswith("KEYSET_")}
        given.update(PYTHONPATH=str(self.package.parent), **environment)
        words = [sys.executable, "-B", "-c", text]
        done = subprocess.run(words, env=given, cwd=self.top, capture_output=True, text=True)
        return done.stdout, "".join(done.stderr.splitlines()[-1:])

    def expect_unavailable(self, says, *words, **environment):
        output, last = self.asked(*words, **environment)
        self.assertEqual(output, "")
        self.assertRegex(last, rf"^keyset\.errors\.Unavailable: .*{says}")

    def place(self, *folders):
        place = self.top.joinpath(*folders)
        place.mkdir(parents=True, exist_ok=True)
        shutil.copy(LIBRARY, place / NAME)
        return str(place)

    def test_the_one_that_is_named(self):
        self.assertEqual(self.asked(KEYSET_LIBRARY=LIBRARY), BY_LIBRARY)

    def test_a_wrong_name_is_an_error(self):
        self.expect_unavailable("/none.so", KEYSET_LIBRARY="/none.so")
        self.expect_unavailable("can't be loaded", KEYSET_LIBRARY=__file__)
        (self.top / "old.c").write_text("unsigned keyset_version(void) { return 1; }\n")
        (self.top / "other.c").write_text("int other;\n")
        for name, says in (("old", "of version 1"), ("other", "it isn't this library")):
            made = str(self.top / f"{name}.so")
            subprocess.run([CC, "-shared", "-o", made, self.top / f"{name}.c"], check=True)
            self.expect_unavailable(says, KEYSET_LIBRARY=made)

    def test_one_of_another_version_is_not_passed_over(self):
        (self.top / "old.c").write_text("unsigned keyset_version(void) { return 1; }\n")
        place = self.package / NAME
        subprocess.run([CC, "-shared", "-o", place, self.top / "old.c"], check=True)
        self.expect_unavailable("of version 1")

    def test_the_one_that_is_installed_with_the_package(self):
        self.place("lib")
        self.assertEqual(self.asked(), BY_LIBRARY)

    def test_the_one_beside_the_package(self):
        self.place("share", "vaqsider", "keyset")
        self.assertEqual(self.asked(), BY_LIBRARY)

    def test_the_one_that_the_loader_finds(self):
        self.assertEqual(self.asked(LD_LIBRARY_PATH=self.place("other")), BY_LIBRARY)

    def test_programs_answer_and_a_warning_says_so(self):
        text = f"{UNKNOWN}import warnings; warnings.simplefilter('error'); {ASK}"
        output, last = self.asked(text)
        self.assertEqual(output, "")
        self.assertRegex(last, "^keyset.engine.Slow: libkeyset isn't there")
        self.assertEqual(self.asked(UNKNOWN + ASK)[0], BY_PROGRAMS[0])
        for asks in ({"KEYSET_LIBRARY": ""}, {"KEYSET_PROGRAMS": str(PROGRAMS)}):
            self.assertEqual(self.asked(UNKNOWN + ASK, **asks), BY_PROGRAMS)

    def place_program(self, name):
        """A program that writes its name and its arguments."""
        path = self.top / "bin" / name
        path.parent.mkdir(exist_ok=True)
        path.write_text(f"#!/bin/sh\necho {name} $*\n")
        path.chmod(0o755)
        return str(path.parent)

    def test_a_word_is_handed_to_the_program(self):
        output = "['keyset\\n', 'keyset status\\n', 'keyset notes\\n']\n"
        folder = self.place_program("keyset")
        for how in ({"KEYSET_PROGRAMS": folder}, {"PATH": f"{folder}:/bin:/usr/bin"}):
            self.assertEqual(self.asked(RUN, **how), (output, ""))

    def test_a_program_of_an_older_release_is_found_by_its_name(self):
        output = "['keyset\\n', 'keyset_status\\n', 'keyset_notes\\n']\n"
        for name in ("keyset", "keyset_status", "keyset_notes"):
            folder = self.place_program(name)
        for how in ({"KEYSET_PROGRAMS": folder}, {"PATH": f"{folder}:/bin:/usr/bin"}):
            self.assertEqual(self.asked(RUN, **how), (output, ""))

    def test_one_call_needs_the_library(self):
        text = f"{UNKNOWN}import keyset; keyset.answer(b'zone example.com')"
        self.expect_unavailable("the library isn't there", text)


if __name__ == "__main__":
    unittest.main()
