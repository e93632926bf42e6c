"""PostgreSQL in a folder of its own, without TCP. It refuses to run as root: then it runs as
Debian's user for it."""

import json
import os
import shutil
import signal
import subprocess
import tempfile
import time
from pathlib import Path

OWNER, NAME, PATIENCE = "postgres", "pdns", 30
SCHEMA = Path("/usr/share/pdns-backend-pgsql/schema/schema.pgsql.sql")


def tool(name):
    """The path of a program of the newest PostgreSQL that is here, or None."""
    found = sorted(Path("/usr/lib/postgresql").glob(f"*/bin/{name}"),
                   key=lambda path: int(path.parts[-3]))
    return str(found[-1]) if found else None


class Postgres:
    """A server with one empty database for PowerDNS. Its socket is in its folder."""

    def __init__(self):
        self.folder = Path(tempfile.mkdtemp(prefix="pg-", dir="/tmp"))
        self.process, self.words = None, []
        if os.geteuid() == 0:
            shutil.chown(self.folder, OWNER, OWNER)
            self.words = ["setpriv", f"--reuid={OWNER}", f"--regid={OWNER}", "--init-groups"]

    def begin(self):
        self.prepare()
        self.start()
        self.fill()

    def prepare(self):
        self.run(tool("initdb"), "-D", self.folder / "data", "-U", NAME, "-A", "trust", "--no-sync")

    def start(self):
        """It ends with the thread that starts it, whatever happens."""
        with open(self.folder / "log", "ab") as log:
            self.process = subprocess.Popen(
                [*self.words, "setpriv", "--pdeathsig", "KILL", tool("postgres"), "-D",
                 str(self.folder / "data"), "-k", str(self.folder), "-h", "", "-F"],
                stdout=log, stderr=log, cwd=self.folder, start_new_session=True)

    def fill(self):
        self.wait()
        self.psql("template1", "-c", f"CREATE DATABASE {NAME}")
        self.psql(NAME, "-f", SCHEMA)

    def wait(self):
        until = time.monotonic() + PATIENCE
        while True:
            try:
                self.psql("template1", "-c", "SELECT 1")
                return
            except subprocess.CalledProcessError:
                if time.monotonic() > until:
                    raise
                time.sleep(0.2)

    def psql(self, database, *words):
        self.run(tool("psql"), "-q", "-X", "-h", self.folder, "-U", NAME, "-v", "ON_ERROR_STOP=1",
                 "-d", database, *words)

    def rows(self, query):
        """What a query gives."""
        how = ["-q", "-X", "-A", "-t", "-h", self.folder, "-U", NAME, "-d", NAME]
        words = [tool("psql"), *how, "-c",
                 f"SELECT coalesce(json_agg(it), '[]') FROM ({query}) it"]
        words = [*self.words, *map(str, words)]
        output = subprocess.check_output(words, cwd=self.folder, text=True)
        return [tuple(it.values()) for it in json.loads(output)]

    def run(self, *words):
        subprocess.run([*self.words, *map(str, words)], check=True, cwd=self.folder,
                       stdout=subprocess.DEVNULL, stderr=subprocess.DEVNULL)

    def settings(self):
        """The lines of pdns.conf that name this database."""
        return (f"launch=gpgsql\ngpgsql-host={self.folder}\ngpgsql-dbname={NAME}\n"
                f"gpgsql-user={NAME}\ngpgsql-dnssec=yes\n")

    def end(self):
        """It waits for nobody who is still connected."""
        if self.process is not None:
            self.process.send_signal(signal.SIGINT)
            self.process.wait(PATIENCE)
        shutil.rmtree(self.folder, ignore_errors=True)
