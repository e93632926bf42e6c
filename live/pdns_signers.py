"""PowerDNS as the signer of scenes: by pdnsutil, by keys of its own, and by its API."""

import asyncio
import base64
import re
import sqlite3
from pathlib import Path

from dnspython import dns, ec
from from_bind import HERE, free_port
from keys import run
from postgres import Postgres
from signers import SECRET, SceneSigner

PDNS = """\
socket-dir={folder}
local-address={here}
local-port={port}
disable-axfr=no
allow-axfr-ips=127.0.0.0/8
setuid=
setgid=
guardian=no
daemon=no
direct-dnskey=yes
"""
SQLITE = "launch=gsqlite3\ngsqlite3-database={folder}/db\ngsqlite3-dnssec=yes\n"
SCHEMA = Path("/usr/share/doc/pdns-backend-sqlite3/schema.sqlite3.sql")
API = "webserver=yes\nwebserver-address={here}\nwebserver-port={port}\napi=yes\napi-key={secret}\n"
OTHER_TEXT = "UPDATE records SET content = ? WHERE name = ? AND type = 'TXT'"
# What PowerDNS has of each key, in any of its databases.
CRYPTOKEYS = "SELECT flags, active, published, content FROM cryptokeys"
CURVES = {13: ec.SECP256R1, 14: ec.SECP384R1}


def tag_of_private(text, flags):
    """The tag of a key by its private half."""
    algorithm = int(re.search(r"^Algorithm: (\d+)", text, re.MULTILINE)[1])
    number = int.from_bytes(base64.b64decode(
        re.search(r"^PrivateKey: (.*)$", text, re.MULTILINE)[1]), "big")
    public = ec.derive_private_key(number, CURVES[algorithm]()).public_key()
    return dns.dnssec.key_id(dns.dnssec.make_dnskey(public, algorithm, flags))


class Pdns(SceneSigner):
    """By pdnsutil, on SQLite."""

    name, tools, source = "pdns", ("pdnsutil", "pdns_control"), "pdns"

    async def start(self, serial):
        self.write(serial)
        database = await self.database()
        (self.folder / "pdns.conf").write_text(database + PDNS.format(
            folder=self.folder, here=HERE, port=self.port))
        await self.util("load-zone", self.zone.name, "zone")
        self.process("pdns_server", f"--config-dir={self.folder}")
        await self.is_up()

    async def change(self, serial):
        """In the database, as its users do it."""
        self.operator.serial = serial
        record = self.operator.records()[-1]
        name, content = record.split()[0].rstrip("."), record.split()[-1]
        await asyncio.to_thread(self.written, OTHER_TEXT, (f'"{content}"', name))
        await self.util("increase-serial", self.zone.name)

    def written(self, statement, values):
        with sqlite3.connect(self.folder / "db") as database:
            database.execute(statement, values)

    async def util(self, *words):
        return await run(self.folder, "pdnsutil", f"--config-dir={self.folder}", *words)

    async def database(self):
        """The settings that name the database, which is made."""
        with sqlite3.connect(self.folder / "db") as database:
            database.executescript(SCHEMA.read_text())
        return SQLITE.format(folder=self.folder)

    def options(self):
        return ["--signer", "pdns", "--signer-config", self.folder]

    def source_options(self):
        return ["--source", self.folder]

    async def make_own_keys(self):
        """PowerDNS signs by keys that it makes itself."""
        for kind in ("ksk", "zsk"):
            await self.util("add-zone-key", self.zone.name, kind, "active", "ecdsa256")
        await self.util("rectify-zone", self.zone.name)

    async def is_taken_over(self):
        """Nothing has to be changed in its settings."""

    async def rows(self):
        with sqlite3.connect(self.folder / "db") as database:
            return list(database.execute(CRYPTOKEYS))

    async def held(self):
        rows = [(tag_of_private(content, int(flags)), active, published)
                for flags, active, published, content in await self.rows()]
        return {tag for tag, _, published in rows if published}, \
            {tag for tag, active, _ in rows if active}


class PdnsOfItsOwnKeys(Pdns):
    """Each key is made in the database, and its private half never leaves it."""

    name = "pdns-keys"

    async def key(self, *flag, algorithm):
        size, kind = {"13": "ecdsa256", "14": "ecdsa384"}[algorithm], "ksk" if flag else "zsk"
        before = await self.records()
        await self.util("add-zone-key", self.zone.name, kind, "inactive", "unpublished", size)
        (record,) = await self.records() - before
        return self.write_key(record)

    async def records(self):
        output = await self.util("show-zone", self.zone.name)
        return set(re.findall(r"DNSKEY = \S+ IN DNSKEY ([^;]+?)\s*;", output))


class PdnsByApi(Pdns):
    """By its API, on PostgreSQL, with NSEC3."""

    name, tools, source, denial = "pdns-api", (), "pdns-api", "NSEC3"

    async def database(self):
        self.api, secret = free_port(), self.folder / "secret"
        secret.write_text(f"{SECRET}\n")
        self.postgres = Postgres()
        await asyncio.to_thread(self.postgres.prepare)
        self.postgres.start()
        await asyncio.to_thread(self.postgres.fill)
        api = API.format(here=HERE, port=self.api, secret=SECRET)
        return self.postgres.settings() + api

    def options(self):
        return ["--signer", f"pdns-api http://{HERE}:{self.api}", "--signer-config",
                self.folder / "secret"]

    def files(self):
        return ["--nsec3", "1 0 0 -"]

    def source_options(self):
        return ["--source", f"http://{HERE}:{self.api}", "--store", self.folder / "secret"]

    async def rows(self):
        return await asyncio.to_thread(self.postgres.rows, CRYPTOKEYS)

    def end(self):
        self.postgres.end()
