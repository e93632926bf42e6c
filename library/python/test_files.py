"""Files of accepted lines: a sync that fails, a full disk, a file that is replaced, is torn or has
lost a line, and the notes beside it."""

import errno
import fcntl
import os
import resource
import stat
import unittest
from pathlib import Path
from unittest import mock

from cases import COURSE, FileCase
from keyset import (
    Accepted,
    Damaged,
    Error,
    KeySet,
    Locked,
    Malformed,
    Misnamed,
    NotKept,
    Notes,
    Refused,
    RollType,
    Torn,
    WrongArgument,
    create,
    due,
)

ROLL = RollType.ALGORITHM_ROLL


class FileMishapTests(FileCase):
    def test_a_file_that_is_replaced_before_the_lock_is_opened_anew(self):
        self.begin().close()
        flock, text = fcntl.flock, self.path.read_text() + COURSE[0] + "\n"

        def replaced(*given):
            if "K1" not in self.path.read_text():
                self.replace(text)
            flock(*given)

        with mock.patch("fcntl.flock", replaced), KeySet.open(self.path) as keys:
            self.assertEqual(keys.call(COURSE[1]).number, 2)
        self.assertEqual(self.path.read_text(), text + COURSE[1] + "\n")

    def replace(self, text):
        new = self.path.with_name("new")
        new.write_text(text)
        os.replace(new, self.path)

    def test_a_file_that_another_has_changed_is_left_as_it_is(self):
        for change in (self.replace, self.path.write_text):
            keys = self.begin(COURSE[:1])
            change("zone example.com\n")
            with self.assertRaises(Locked):
                keys.call(COURSE[1])
            self.assertEqual(self.path.read_text(), "zone example.com\n")
            self.assertEqual(list(keys.keys()), ["K1"])
            keys.close()

    def test_a_line_that_is_not_synced_is_cut_off_again(self):
        keys = self.begin(COURSE[:2])
        before, sync = self.path.read_bytes(), os.fsync
        fault = OSError(errno.EIO, "Input/output error")
        for faults, remains in (([fault, None], False), ([fault, fault], True)):
            with mock.patch("os.fsync", side_effect=faults), self.assertRaises(NotKept) as unkept:
                keys.call(COURSE[2])
            self.assertEqual(unkept.exception.remains, remains)
            self.assertEqual(unkept.exception.errno, errno.EIO)
            self.assertEqual(self.path.read_bytes(), before)
            self.assertEqual((keys.rolls(), len(keys.lines)), ({}, 3))
        self.assertIs(os.fsync, sync)
        self.assertEqual(keys.call(COURSE[2]).number, 3)

    def test_a_line_that_cannot_be_cut_off_is_named(self):
        keys = self.begin(COURSE[:2])
        length, fault = self.path.stat().st_size, OSError(errno.EIO, "Input/output error")
        with mock.patch("os.fsync", side_effect=fault), mock.patch(
            "os.ftruncate", side_effect=[None, fault]
        ), self.assertRaisesRegex(NotKept, f"after byte {length}"):
            keys.call(COURSE[2])
        self.assertEqual(keys.rolls(), {})
        # The next call writes over it.
        keys.call("set-decoupled K1 yes")
        self.assertEqual(self.path.read_text().splitlines()[3:], ["set-decoupled K1 yes"])

    def test_what_was_kept_outlives_a_power_cut(self):
        """Only what was synced is there after one: of a new file its folder too."""
        folder, names, contents = self.path.parent, {}, {}

        def synced(descriptor):
            here = os.fstat(descriptor)
            if stat.S_ISDIR(here.st_mode):
                names.update((it.name, it.inode()) for it in os.scandir(folder))
            else:
                contents[here.st_ino] = Path(f"/proc/self/fd/{descriptor}").read_bytes()

        def expect_all():
            there = {it.name: it.read_bytes() for it in folder.iterdir()}
            self.assertEqual({name: contents.get(names.get(name)) for name in there}, there)

        with mock.patch("os.fsync", synced), KeySet.create(self.path, "example.com") as keys:
            expect_all()
            keys.note("before 60 60 60")
            expect_all()
            for line in COURSE[:3]:
                keys.call(line)
                expect_all()
            keys.note("published dnskey 3 60 1")
            expect_all()

    def test_what_is_opened_is_synced(self):
        """A writer that was killed may have written its line without a sync."""
        keys = self.begin(COURSE)
        keys.close()
        with mock.patch("os.fsync", side_effect=os.fsync) as synced:
            KeySet.open(self.path).close()
        self.assertEqual(synced.call_count, 2)

    def test_a_full_disk_leaves_the_file_as_it_was(self):
        keys = self.begin(COURSE[:2])
        before = self.path.read_bytes()
        _, most = resource.getrlimit(resource.RLIMIT_FSIZE)
        resource.setrlimit(resource.RLIMIT_FSIZE, (len(before) + 5, most))
        try:
            with self.assertRaises(NotKept) as unkept:
                keys.call(COURSE[2])
        finally:
            resource.setrlimit(resource.RLIMIT_FSIZE, (most, most))
        self.assertFalse(unkept.exception.remains)
        self.assertEqual((self.path.read_bytes(), keys.rolls()), (before, {}))
        keys.call(COURSE[2])

    def test_an_interrupt_leaves_the_file_as_it_was(self):
        keys = self.begin(COURSE[:2])
        before = self.path.read_bytes()
        with mock.patch("os.fsync", side_effect=[KeyboardInterrupt, None]):
            with self.assertRaises(KeyboardInterrupt):
                keys.call(COURSE[2])
        self.assertEqual((self.path.read_bytes(), keys.rolls()), (before, {}))

    def test_a_key_set_that_nobody_has_any_more_is_unlocked(self):
        keys = KeySet.create(self.path, "example.com")
        keys.note("before 1 1 1")
        keys.call(COURSE[0])
        del keys
        KeySet.open(self.path).close()

    def test_a_process_may_go_to_another_folder(self):
        self.addCleanup(os.chdir, os.getcwd())
        os.chdir(self.path.parent)
        with KeySet.create(self.path.name, "example.com") as keys:
            os.chdir("/")
            keys.call(COURSE[0])
            keys.note("before 1 1 1")
        self.assertEqual(Notes(self.path).lines, ["before 1 1 1"])

    def test_a_script_that_lost_a_line_is_damaged(self):
        for lost in range(len(COURSE) - 1):
            lines = [*COURSE[:lost], *COURSE[lost + 1 :]]
            self.path.write_text("".join(f"{line}\n" for line in ("zone example.com", *lines)))
            with self.assertRaises(Damaged) as damaged:
                KeySet.open(self.path)
            self.assertTrue(damaged.exception.reason.startswith("refused: "))
            with self.assertRaisesRegex(Damaged, f"^line {damaged.exception.line}: refused: "):
                KeySet.resume(self.path.read_text())
            with KeySet.open(self.path, allow_refused=True) as keys:
                self.assertEqual(keys.refused[0][0], damaged.exception.line)
                self.assertEqual(keys.lines[1:], lines)

    def test_numbers_of_calls_are_those_of_the_lines(self):
        """A refused line of the file counts, and a refused call that isn't kept doesn't."""
        lines = [*COURSE[:2], "delete K9", COURSE[2], "wait1 algorithm-roll 1"]
        self.begin(COURSE[:1]).close()
        self.path.write_text("".join(f"{line}\n" for line in ("zone example.com", *lines)))
        noted = ["before 60 7200 3600", "published dnskey 4 60 10", "published zone 4 60 10"]
        noted += ["everywhere dnskey 20", "everywhere zone 20"]
        with KeySet.open(self.path, allow_refused=True) as keys:
            for line in noted:
                keys.note(line)
            self.assertEqual(keys.refused[0], (4, "key not found"))
            wanted = due(keys.lines, noted, 30)
            self.assertEqual({one.roll.value: one.ttl for one in keys.due(30)}, wanted)
            with self.assertRaises(Refused):
                keys.cache_expired1(ROLL, 30)
            made = keys.propagation1_complete(ROLL, 7180, 30)
            self.assertEqual((made.number, keys.lines[6]), (6, "report1 algorithm-roll 7180 30"))
            self.assertEqual(made, Accepted([], 0))

    def test_notes_that_another_has_written_meanwhile_are_read_first(self):
        self.begin(COURSE[:3]).note("before 60 60 60")
        notes, others = Notes(self.path), Notes(self.path)
        others.append("published dnskey 3 60 10")
        with self.assertRaises(Locked):
            notes.append("published dnskey 3 60 9")
        self.assertEqual(notes.more(), ["published dnskey 3 60 10"])

    def test_notes_take_no_moment_before_the_last_one_of_a_kind(self):
        """A clock that was set back doesn't damage them."""
        self.begin(COURSE[:3]).note("before 60 60 60")
        notes = Notes(self.path)
        notes.publish(3, {"dnskey": 60}, 10)
        notes = Notes(self.path)
        with self.assertRaises(WrongArgument):
            notes.append("published dnskey 3 70 9")
        with self.assertRaises(WrongArgument):
            notes.publish(3, {"dnskey": 70}, 9.9)
        with self.assertRaises(WrongArgument):
            notes.everywhere({"dnskey": 60}, 8.5)
        notes.everywhere({"zone": 60}, 20)
        self.assertEqual(Notes(self.path).lines[2:], [])
        notes.publish(3, {"zone": 60}, 9)
        Notes(self.path).append("published dnskey 3 60 10")
        self.assertEqual(len(Notes(self.path).lines), 4)
        Notes(self.path).check(["zone example.com", *COURSE[:3]])

    def test_notes_take_no_moment_before_that_of_a_call(self):
        self.begin(COURSE[:5]).note("before 60 60 60")
        for call, moment in ((4, 100), (5, 3700)):
            with self.assertRaises(WrongArgument):
                Notes(self.path).publish(call, {"ds": 60}, moment - 0.5)
            Notes(self.path).publish(call, {"ds": 60}, moment)
        Notes(self.path).check(["zone example.com", *COURSE[:5]])

    def test_notes_have_no_place_beside_a_script_of_another_name(self):
        self.path = self.path.with_name("example.com")
        keys = self.begin(COURSE[:3])
        with self.assertRaises(Misnamed):
            keys.note("before 60 60 60")
        with self.assertRaises(Malformed):
            keys.due(1)
        self.assertEqual([it.name for it in self.path.parent.iterdir()], ["example.com"])

    def test_notes_stand_beside_the_script(self):
        """Notes of a key set are in the file that `Notes` reads, and come back with it."""
        keys = self.begin(COURSE[:3])
        keys.note("before 60 7200 3600")
        keys.note("published dnskey 3 60 10")
        with self.assertRaises(Error):
            keys.note("published dnskey 9 60 11")
        self.assertEqual(Notes(self.path).lines, keys.notes.lines)
        # Another program notes more: a question takes that too.
        Notes(self.path).publish(3, {"zone": 60}, 10)
        Notes(self.path).everywhere({"dnskey": 60, "zone": 60}, 20)
        self.assertEqual([one.ttl for one in keys.due(30)], [7191])
        self.assertEqual(keys.notes.lines, Notes(self.path).lines)
        keys.close()
        with KeySet.open(self.path) as again:
            self.assertEqual([one.ttl for one in again.due(30)], [7191])
            self.assertEqual(again.notes.lines, Notes(self.path).lines)
            fault = OSError(errno.EIO, "Input/output error")
            with mock.patch("os.fsync", side_effect=[None, None, fault, None]):
                with self.assertRaises(NotKept):
                    again.note("published dnskey 3 3600 40")
            self.assertEqual([one.ttl for one in again.due(30)], [7191])

    def test_notes_that_cannot_be_are_not_opened(self):
        """And the script is unlocked again."""
        keys, notes = self.begin(COURSE[:3]), self.path.with_suffix(".notes")
        keys.note("before 60 60 60")
        notes.write_text("before 1 1 1\n")
        with self.assertRaises(Damaged):
            keys.due(30)
        keys.close()
        notes.write_text("before 1 1 1\npublished dnskey 3 1 1")
        for part in (KeySet.open, Notes):
            with self.assertRaises(Torn):
                part(self.path)
        with KeySet.open(self.path, cut_torn=True) as again:
            again.note("published dnskey 3 2 2")
            self.assertEqual(Notes(self.path).lines, ["before 1 1 1", "published dnskey 3 2 2"])
        notes.write_text("before 1 1 1\npublished dnskey 9 1 1\n")
        with self.assertRaisesRegex(Damaged, "notes: line 2: no such call yet"):
            KeySet.open(self.path)
        notes.write_text(f"before 1 1 1\neverywhere dnskey {'1' * 5000}\n")
        with self.assertRaisesRegex(Damaged, "line 2: it has not the form"):
            KeySet.open(self.path)
        notes.unlink()
        KeySet.open(self.path).close()

    def test_a_draft_that_a_crash_has_left_stops_nobody(self):
        """In a container the next process may have the same number."""
        self.path.with_name(f"{self.path.name}.{os.getpid()}.new").touch()
        create(self.path, ["zone example.com"])
        self.assertEqual(self.path.read_text(), "zone example.com\n")


if __name__ == "__main__":
    unittest.main()
