"""Starts servers as processes, and ends each of them, whatever happens."""

import asyncio
import os
import shutil
import signal
import socket
import subprocess
import time
from pathlib import Path

import postgres
from places import ALL

# Debian's package for each program that is run.
PACKAGES = {
    "nsd": "nsd",
    "knotd": "knot",
    "knotc": "knot",
    "unbound": "unbound",
    "named": "bind9",
    "dnssec-keygen": "bind9-utils",
    "dnssec-signzone": "bind9-utils",
    "dnssec-verify": "bind9-utils",
    "dnssec-settime": "bind9-utils",
    "rndc": "bind9-utils",
    "keymgr": "knot",
    "ldns-keygen": "ldnsutils",
    "ldns-signzone": "ldnsutils",
    "pdns_recursor": "pdns-recursor",
    "pdns_server": "pdns-server",
    "pdnsutil": "pdns-server",
    "pdns_control": "pdns-server",
    "setpriv": "util-linux",
    "unshare": "util-linux",
    "mount": "mount",
    "softhsm2-util": "softhsm2",
    "ods-enforcerd": "opendnssec-enforcer-sqlite3",
    "ods-signerd": "opendnssec-signer",
}
# Those without a program in the folders of programs.
LIBRARIES = {
    "pdns-backend-sqlite3": Path("/usr/share/doc/pdns-backend-sqlite3/schema.sqlite3.sql").exists,
    "pdns-backend-pgsql": postgres.SCHEMA.exists,
    "postgresql": lambda: postgres.tool("postgres") is not None,
}
PATHS = os.pathsep.join((os.environ.get("PATH", ""), "/usr/sbin", "/sbin"))


class SceneFailure(Exception):
    """A program that the test needs doesn't do its work."""


def program(name):
    """The path of a program, which may be in a folder for administrators."""
    return shutil.which(name, path=PATHS)


def missing():
    """The packages of the programs that are not there."""
    found = {package for name, package in PACKAGES.items() if not program(name)}
    return sorted(found | {package for package, has in LIBRARIES.items() if not has()})


def is_taken(port):
    """Whether another process listens at one of the addresses."""
    for address in ALL:
        with socket.socket(socket.AF_INET, socket.SOCK_DGRAM) as probe:
            try:
                probe.bind((address, port))
            except OSError:
                return True
    return False


class Processes:
    """The running servers, each in a process group of its own. If this process is killed, the
    kernel ends them."""

    def __init__(self, folder):
        self.folder, self.running, self.commands, self.restarting = folder, {}, {}, set()

    def copy(self, name):
        """The path of the copy of a server's program in the run's folder. AppArmor goes by the
        path, and wouldn't let Debian's own programs write there."""
        path = self.folder / "programs" / name
        if not path.exists():
            path.parent.mkdir(exist_ok=True)
            shutil.copy2(program(name), path)
        return path

    def start(self, name, *command):
        """Starts a server that stays in the foreground. What it prints goes into a file."""
        self.commands[name] = command
        log = open(self.folder / f"{name}.log", "ab")
        with log:
            self.running[name] = subprocess.Popen(
                [program("setpriv"), "--pdeathsig", "KILL", self.copy(command[0]), *command[1:]],
                stdin=subprocess.DEVNULL, stdout=log, stderr=log, cwd=self.folder,
                start_new_session=True,
            )

    async def restart(self, name):
        """Ends a server as a crash does, and starts it again. What it kept in memory is gone."""
        self.restarting.add(name)
        process = self.running[name]
        end(process, signal.SIGKILL)
        while process.poll() is None:
            await asyncio.sleep(0.05)
        self.start(name, *self.commands[name])
        self.restarting.discard(name)

    def signal(self, name, number):
        self.running[name].send_signal(number)

    def lines(self, name, word):
        """What a server has printed, of the lines that have this word."""
        path = self.folder / f"{name}.log"
        text = path.read_text(errors="replace") if path.exists() else ""
        return [line for line in text.splitlines() if word in line]

    def check(self):
        """Fails if a server has ended."""
        for name, process in self.running.items():
            if process.poll() is not None and name not in self.restarting:
                said = (self.folder / f"{name}.log").read_text(errors="replace")[-2000:]
                raise SceneFailure(f"{name} ended with status {process.returncode}:\n{said}")

    def stop(self):
        """Ends all servers, first gently."""
        for process in self.running.values():
            end(process, signal.SIGTERM)
        until = time.monotonic() + 5
        for process in self.running.values():
            try:
                process.wait(max(0, until - time.monotonic()))
            except subprocess.TimeoutExpired:
                pass
            end(process, signal.SIGKILL)
            process.wait()
        self.running.clear()


async def outcome(*command, **how):
    """Runs a tool to its end, and gives its status, its output and its errors. Ends the tool if
    this is cancelled."""
    process = await asyncio.create_subprocess_exec(
        *command, stdin=subprocess.DEVNULL, stdout=subprocess.PIPE, stderr=subprocess.PIPE,
        start_new_session=True, **how,
    )
    try:
        out, err = await process.communicate()
    except asyncio.CancelledError:
        end(process, signal.SIGKILL)
        await process.communicate()
        raise
    return process.returncode, out.decode(), err.decode()


def end(process, number):
    """Sends a signal to the group that a process leads."""
    try:
        os.killpg(process.pid, number)
    except ProcessLookupError:
        pass
