"""Tests the library for ARM on this machine, under qemu.

    python3 -m tests.library.arm FOLDER    takes the library that `make arm` has left there

The tests and callers in C and in Go are built for ARM here. Those in Python run in Debian's Python
for ARM, which is unpacked into a folder, and not installed. There `sys.executable` names a script
that begins Python under qemu: so the tests may start others of their kind, and the kernel need not
know of ARM. The programs that answers are compared with are those of this machine.
"""

import os
import subprocess
import sys
import tempfile
import time
from pathlib import Path

from tests.gate.tools import TOP, Fault, run

CC = "aarch64-linux-gnu-gcc"
QEMU = "qemu-aarch64"
# Debian's Python of this machine: what it compiles has the form that the one for ARM reads. Under
# qemu each start of Python would compile all modules anew.
COMPILER = "/usr/bin/python3"
# Of so many stored scripts Python plays one: under qemu it is slow.
EVERY = "10"
OURS = (TOP / "tests", TOP / "library" / "python")
PACKAGES = ("python3-minimal", "libpython3-stdlib", "python3-jsonschema")
# apt-get for another architecture, with folders of its own.
SETTINGS = """\
APT::Architecture "arm64";
APT::Architectures "arm64";
APT::Install-Recommends "false";
APT::Sandbox::User "root";
Dir::State "{room}/state";
Dir::State::status "{room}/status";
Dir::Cache "{room}/cache";
"""
PYTHON = """\
#!/bin/sh
exec {qemu} -L {root} -0 "$0" {root}/usr/bin/{python} "$@"
"""


def unpack(room):
    """Unpacks Debian's packages of Python for ARM, and gives the folder."""
    for folder in ("state/lists/partial", "cache/archives/partial", "root"):
        (room / folder).mkdir(parents=True)
    (room / "status").touch()
    (room / "settings").write_text(SETTINGS.format(room=room))
    env = {**os.environ, "APT_CONFIG": str(room / "settings")}
    run("apt-get", "-qq", "update", env=env)
    run("apt-get", "-qq", "--yes", "--download-only", "install", *PACKAGES, env=env)
    for package in (room / "cache" / "archives").glob("*.deb"):
        run("dpkg-deb", "--extract", package, room / "root")
    return room / "root"


def compile_all(room, root):
    """Compiles the modules of Python and ours, into a folder that each Python looks into."""
    os.environ["PYTHONPYCACHEPREFIX"] = str(room / "compiled")
    run(COMPILER, "-m", "compileall", "-q", root / "usr" / "lib", *OURS)


def python_of(room):
    """A script that begins Python for ARM. It lies where Python looks for its folders."""
    root = unpack(room)
    compile_all(room, root)
    script = root / "usr" / "bin" / "python3"
    name = script.readlink().name
    script.unlink()
    script.write_text(PYTHON.format(qemu=QEMU, root=root, python=name))
    script.chmod(0o755)
    return script


def main():
    began, folder = time.monotonic(), Path(sys.argv[1]).resolve()
    os.environ.update(CC=CC, RUNNER=f"{QEMU} -L /usr/aarch64-linux-gnu")
    with tempfile.TemporaryDirectory() as room:
        try:
            python = python_of(Path(room))
        except Fault as fault:
            print(f"arm: {fault}")
            return 1
        slow = {**os.environ, "EVERY": EVERY}
        for env, *words in (
            (os.environ, sys.executable, "-m", "tests.library.library", folder, "elsewhere"),
            (os.environ, sys.executable, "-m", "tests.library.go", folder, "elsewhere"),
            (slow, python, "-m", "tests.library.library", folder, "python"),
        ):
            if subprocess.run(list(map(str, words)), cwd=TOP, env=env).returncode:
                return 1
            print(f"arm: after {time.monotonic() - began:.0f} s", flush=True)
    return 0


if __name__ == "__main__":
    sys.exit(main())
