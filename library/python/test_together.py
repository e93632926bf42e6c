"""A file of accepted lines that several want: processes side by side, one that is killed, one that
forks, threads, and a handler of a signal."""

import fcntl
import multiprocessing
import os
import signal
import subprocess
import threading
import time
import unittest
from unittest import mock

from cases import COURSE, FileCase, add
from keyset import Accepted, Error, Forked, KeySet, Locked, locked
from keyset.engine import _has_library

PROCESSES, LINES = 4, 25 if _has_library() else 3
FORK = multiprocessing.get_context("fork")


def opened(path, **how):
    """The key set of a file, once no other process has that open for writing."""
    while True:
        try:
            return KeySet.open(path, **how)
        except Locked:
            time.sleep(0.001)


def keep(path, number):
    """Adds a key by this package."""
    with opened(path) as keys:
        add(keys, number)


def keep_by_renaming(path, number, all_opened):
    """Adds a key as another recipe says: under a lock, a new file takes the place of the old."""
    with open(path) as file:
        all_opened.wait()
        fcntl.flock(file, fcntl.LOCK_EX)
        new = path.with_name(f"{number}.new")
        new.write_text(f"{file.read()}add-zsk Z{number} - 13 {number} 0 yes\n")
        os.replace(new, path)


def child(part):
    """Whether a part passes in a child of this process."""
    if (pid := os.fork()) != 0:
        return os.waitstatus_to_exitcode(os.waitpid(pid, 0)[1]) == 0
    status = 1
    # (One that waits for ever fails.)
    signal.alarm(60)
    try:
        part()
        status = 0
    finally:
        os._exit(status)


class SharingTests(FileCase):
    def side_by_side(self, part, *more):
        started = [
            FORK.Process(target=part, args=(number, *more)) for number in range(PROCESSES)
        ]
        for process in started:
            process.start()
        for process in started:
            process.join()
            self.assertEqual(process.exitcode, 0)
        return self.path.read_text().splitlines()[1:]

    def test_processes_side_by_side_keep_all_lines(self):
        self.begin().close()

        def part(begin):
            for number in range(begin, PROCESSES * LINES, PROCESSES):
                keep(self.path, number)

        self.assertEqual(len(self.side_by_side(part)), PROCESSES * LINES)
        KeySet.open(self.path).close()

    def test_a_file_in_place_of_the_locked_one_loses_lines(self):
        self.begin().close()

        def part(number, all_opened):
            keep_by_renaming(self.path, number, all_opened)

        self.assertEqual(len(self.side_by_side(part, FORK.Barrier(PROCESSES))), 1)

    def test_a_writer_that_is_killed_leaves_each_accepted_line(self):
        self.begin().close()
        for attempt in range(5):
            reading, writing = os.pipe()
            if (pid := os.fork()) == 0:
                with KeySet.open(self.path) as keys:
                    for number in range(attempt * 1000, attempt * 1000 + 1000):
                        add(keys, number)
                        os.write(writing, b".")
            os.close(writing)
            os.read(reading, 1)
            time.sleep(attempt / 500)
            os.kill(pid, signal.SIGKILL)
            os.waitpid(pid, 0)
            returned = len(os.read(reading, 4096)) + 1
            os.close(reading)
            # (A program that the writer had just begun may have the file still.)
            with opened(self.path, cut_torn=True) as keys:
                tags = [int(line.split(" ")[4]) for line in keys.lines[1:]]
            kept = sum(tag // 1000 == attempt for tag in tags)
            self.assertIn(kept, (returned, returned + 1))

    def test_a_child_of_the_process_is_refused(self):
        keys = self.begin(COURSE[:2])
        asked = (
            lambda: keys.call(COURSE[2]),
            lambda: keys.would(COURSE[2]),
            lambda: keys.note("before 1 1 1"),
            lambda: keys.due(1),
            lambda: keys.published,
            keys.keys,
            keys._session.copy,
            keys._session.closing,
        )

        def part():
            for ask in asked:
                with self.assertRaises(Forked):
                    ask()
            keys.close()
            with self.assertRaises(Locked):
                KeySet.open(self.path)

        self.assertTrue(child(part))
        self.assertEqual(keys.call(COURSE[2]).number, 3)
        self.assertEqual(len(self.path.read_text().splitlines()), 4)

    def test_a_child_writes_nothing_to_a_locked_file(self):
        self.begin().close()
        with locked(self.path) as lines:

            def part():
                with self.assertRaises(Forked):
                    lines.append(COURSE[0])

            self.assertTrue(child(part))

    def test_a_child_keeps_no_lock_of_a_process_that_has_ended(self):
        self.begin().close()
        reading, writing = os.pipe()

        def part():
            keys = KeySet.open(self.path)
            if os.fork() == 0:
                os.write(writing, b".")
                time.sleep(2)
                os._exit(0)
            os._exit(len(keys.refused))

        self.assertTrue(child(part))
        os.read(reading, 1)
        KeySet.open(self.path).close()

    def test_a_child_that_lives_on_keeps_no_lock(self):
        keys = self.begin()
        reading, writing = os.pipe()
        if (pid := os.fork()) == 0:
            os.close(writing)
            os.read(reading, 1)
            os._exit(0)
        keys.close()
        KeySet.open(self.path).close()
        os.close(writing)
        os.close(reading)
        os.waitpid(pid, 0)

    def test_a_program_that_has_the_open_file_keeps_no_lock(self):
        keys = self.begin()
        opened = [keys._file._lock.descriptor]
        with subprocess.Popen(["sleep", "60"], pass_fds=opened) as program:
            try:
                keys.close()
                KeySet.open(self.path).close()
            finally:
                program.kill()

    def test_a_child_is_refused_while_a_thread_holds_the_lock(self):
        keys = self.begin()

        def part():
            with self.assertRaises(Forked):
                keys.keys()

        thread_has, child_is_done = threading.Event(), threading.Event()

        def hold():
            with keys._guard.held():
                thread_has.set()
                child_is_done.wait()

        holder = threading.Thread(target=hold)
        holder.start()
        thread_has.wait()
        is_refused = child(part)
        child_is_done.set()
        holder.join()
        self.assertTrue(is_refused)

    def test_a_handler_of_a_signal_makes_no_call_within_a_call(self):
        keys, references, sync = self.begin(COURSE[:1]), [], os.fsync

        def interrupted(descriptor):
            with self.assertRaises(Locked):
                add(keys, 7)
            references.append(list(keys.keys()))
            sync(descriptor)

        with mock.patch("os.fsync", interrupted):
            keys.call(COURSE[1])
        self.assertEqual((references, len(keys.lines)), ([["K1"]], 3))

    def test_nor_within_a_call_in_memory(self):
        keys = KeySet("example.com")

        def interrupted(_, number):
            with self.assertRaises(Locked):
                keys.call(COURSE[1])
            return Accepted([], number)

        with mock.patch("keyset.keyset.Accepted.of", interrupted):
            self.assertEqual(keys.call(COURSE[0]).number, 1)
        self.assertEqual(keys.lines[1:], [COURSE[0]])

    def test_threads_share_a_key_set(self):
        keys, wrong = self.begin(COURSE[:3]), []

        def read():
            for _ in range(200):
                try:
                    if keys.published.dnskey != ["K1", "Z1"] or keys.chain != "safe":
                        wrong.append("other sets")
                except Error as error:
                    wrong.append(error)

        def write(begin):
            for number in range(begin, begin + 2 * LINES, 2):
                add(keys, number)

        threads = [threading.Thread(target=read) for _ in range(6)]
        threads += [threading.Thread(target=write, args=(begin,)) for begin in (2, 3)]
        for thread in threads:
            thread.start()
        for thread in threads:
            thread.join()
        self.assertEqual(wrong, [])
        keys.close()
        with KeySet.open(self.path) as again:
            self.assertEqual(len(again.keys()), 2 + 2 * LINES)


if __name__ == "__main__":
    unittest.main()
