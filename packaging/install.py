#!/usr/bin/env python3
"""Installs what `make build lib` has made, and removes it again.

    packaging/install.py install PREFIX [--destdir FOLDER] [--libdir FOLDER] [--without PART]
    packaging/install.py uninstall PREFIX [--destdir FOLDER]

With --destdir the files go below that folder, as packagers want them. The folder PREFIX may be
moved as a whole: nothing in it says where it is. `share/vaqsider/installed` lists what was
installed. `uninstall` removes that, and then the folders that `install` made, if they are empty.
A shared object of an older interface stays, since programs may be linked to it.
"""

import argparse
import os
import pwd
import subprocess
import sys
from contextlib import suppress
from pathlib import Path

sys.dont_write_bytecode = True

from layout import BUILT, PARTS, USERS, Layout
from trees import MissingFile, install, uninstall


def loader_folders():
    """Where the loader looks for shared objects, beside those that a program names."""
    words = ["ldconfig", "-N", "-X", "-v"]
    environment = {**os.environ, "PATH": f"{os.environ.get('PATH', '')}:/sbin:/usr/sbin"}
    shown = subprocess.run(words, env=environment, capture_output=True, text=True, check=False)
    return {line.partition(":")[0] for line in shown.stdout.splitlines() if line.startswith("/")}


def let_loader_see(folder):
    """Lets the loader see a new library in this folder, or says what is left to do."""
    if str(folder) not in loader_folders():
        return f"the loader doesn't look in {folder}: set LD_LIBRARY_PATH, or name it by -rpath"
    if os.geteuid():
        return "run ldconfig as root: the loader then finds the library"
    subprocess.run(["ldconfig"], check=True)
    return None


def user_to_make(users):
    """Says what is left to do for the units of systemd: they run as a user of their own."""
    name = users.stem
    with suppress(KeyError):
        pwd.getpwnam(name)
        return None
    return f"run 'systemd-sysusers {users}' as root: it makes the user {name}, as whom ticks run"


def arguments():
    parser = argparse.ArgumentParser(description=__doc__.partition("\n")[0])
    parser.add_argument("word", choices=("install", "uninstall"))
    parser.add_argument("prefix", metavar="PREFIX", help="the folder for bin, lib and share")
    parser.add_argument("--destdir", metavar="FOLDER", default="", help="put PREFIX below this")
    parser.add_argument("--libdir", metavar="FOLDER", type=Path, default=Path("lib"),
                        help="where libraries lie below PREFIX, as lib/x86_64-linux-gnu (lib)")
    parser.add_argument("--without", metavar="PART", action="append", choices=PARTS, default=[],
                        help=f"leave a part out: {', '.join(PARTS)}")
    parser.add_argument("--library", metavar="FOLDER", type=Path, default=BUILT,
                        help="where the library is (library/out)")
    given = parser.parse_args()
    if not os.path.isabs(given.prefix):
        parser.error(f"PREFIX is {given.prefix!r}, and has to begin with a slash")
    if given.libdir.is_absolute() or ".." in given.libdir.parts:
        parser.error(f"--libdir is {str(given.libdir)!r}, and has to lie below PREFIX")
    return given


def do(given):
    """Does what the word says, and gives the lines to print."""
    root = Path(given.destdir + given.prefix)
    if given.word == "uninstall":
        yield f"uninstalled {len(uninstall(root))} files below {root}"
        return
    parts = tuple(part for part in PARTS if part not in given.without)
    names = install(root, Layout(parts, given.libdir, given.library))
    yield f"installed {len(names)} files below {root}"
    if "library" in parts and not given.destdir:
        if left := let_loader_see(root / given.libdir):
            yield left
    if "command" in parts and not given.destdir:
        if left := user_to_make(root / USERS / "vaqsider.conf"):
            yield left


def main():
    given = arguments()
    try:
        for line in do(given):
            print(line)
    except (MissingFile, OSError, subprocess.CalledProcessError) as fault:
        print(f"{given.word}: {fault}", file=sys.stderr)
        return 1
    return 0


if __name__ == "__main__":
    sys.exit(main())
