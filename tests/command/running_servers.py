"""The real signers of running.py: PowerDNS, Knot DNS and named, each with its settings, its keys
and its process."""

from __future__ import annotations

import contextlib
import os
import shutil
import socket
import sqlite3
import subprocess
import time
from argparse import Namespace
from pathlib import Path

import dns.exception
import dns.flags
import dns.message
import dns.query
import dns.rdatatype

from live.postgres import Postgres
from vaqsider import keyfiles
from vaqsider.signers import Key, Sets
from vaqsider.signers.inline import InlineSigner
from vaqsider.signers.knot import FAR, Knot
from vaqsider.signers.pdns import Pdnsutil
from vaqsider.signers.pdns_api import Api

# For how many seconds a server may take to begin.
PATIENCE = 30
ORIGIN, HERE = "example.com.", "127.0.0.1"
RRSIG = dns.rdatatype.RRSIG
ZONE = """$TTL 300
@ IN SOA ns h 1 3600 600 86400 60
  NS ns
ns A 127.0.0.1
mail 7200 A 127.0.0.2
*.wild TXT "a b"
"""
KEYS = {"K1": ("13", True), "K2": ("13", True), "Z1": ("13", False), "Z2": ("13", False),
        "C3": ("13", True), "K4": ("8", True), "Z4": ("8", False)}
SOFTHSM = "/usr/lib/softhsm/libsofthsm2.so"
SCHEMA = Path("/usr/share/doc/pdns-backend-sqlite3/schema.sqlite3.sql")
SECRET = "key k { algorithm hmac-sha256; secret \"%s=\"; };" % ("A" * 43)


def free_port() -> int:
    with socket.socket() as probe:
        probe.bind((HERE, 0))
        return probe.getsockname()[1]


def key_file(name: str, algorithm: str, is_sep: bool) -> Key:
    size = ["-b", "2048"] * (algorithm == "8")
    words = ["dnssec-keygen", "-q", "-a", algorithm, *size, *["-f", "KSK"] * is_sep, ORIGIN]
    path = subprocess.check_output(words, text=True).strip()
    for option in ("-P", "-A"):
        subprocess.run(["dnssec-settime", option, "none", path], stdout=subprocess.DEVNULL,
                       check=True)
    file = keyfiles.read(path)
    return Key.of(file.data, name, file)


class RunningSigner:
    """A running signer, its port, and its adaptor."""

    def __init__(self) -> None:
        self.port, self.here = free_port(), Path.cwd()
        Path("zone").write_text(ZONE)
        self.prepare()
        self.keys = self.make_keys()
        self.process = self.begin()
        self.wait()

    def make_keys(self) -> dict[str, Key]:
        """The keys of the course, as files."""
        return {name: key_file(name, *how) for name, how in KEYS.items()}

    def start(self, *words: str) -> subprocess.Popen:
        with open("log", "ab") as log:
            return subprocess.Popen(words, stdout=log, stderr=log)

    def end(self) -> None:
        self.process.terminate()
        self.process.wait(20)

    def given(self, known) -> Sets:
        """The sets that the server gives."""
        names = {key.data: key for key in known}
        answers = {kind: self.ask(kind) for kind in ("DNSKEY", "SOA", "CDNSKEY")}
        of = {kind: [names.get(Key.of(it.to_text()).data, Key.of(it.to_text())) for it in records]
              for kind, (records, _) in answers.items() if kind != "SOA"}
        by_tag = {key.tag: key for key in known}
        by = {kind: frozenset(by_tag[it.key_tag] for it in made)
              for kind, (_, made) in answers.items()}
        return Sets(frozenset(of["DNSKEY"]), by["DNSKEY"], by["SOA"], frozenset(of["CDNSKEY"]))

    def wait(self) -> None:
        """Waits until it gives the zone."""
        for _ in range(PATIENCE * 5):
            with contextlib.suppress(OSError, dns.exception.DNSException):
                if self.ask("SOA")[0]:
                    return
            time.sleep(0.2)
        raise SystemExit(f"it doesn't give the zone: {Path('log').read_text()[-2000:]}")

    def ask(self, kind: str):
        query = dns.message.make_query(ORIGIN, kind, want_dnssec=True, payload=4096)
        query.flags &= ~dns.flags.RD
        answer = dns.query.udp_with_fallback(query, HERE, timeout=2, port=self.port)[0]
        found = [it for it in answer.answer if it.name.to_text() == ORIGIN]
        of = {name: [data for it in found if it.rdtype == number for data in it]
              for name, number in ((kind, dns.rdatatype.from_text(kind)), ("RRSIG", RRSIG))}
        return of[kind], of["RRSIG"]


SQLITE = "launch=gsqlite3\ngsqlite3-database={here}/db\ngsqlite3-dnssec=yes\n"
PDNS = """socket-dir={here}
local-address={at}
local-port={port}
setuid=
setgid=
guardian=no
daemon=no
direct-dnskey=yes
"""


class RunningPdns(RunningSigner):
    def prepare(self) -> None:
        Path("pdns.conf").write_text(self.database() + PDNS.format(
            here=self.here, at=HERE, port=self.port))
        self.util("load-zone", ORIGIN, "zone")
        self.store = self.adaptor()

    @staticmethod
    def util(*words: str) -> None:
        subprocess.run(["pdnsutil", "--config-dir=.", *words], check=True,
                       stdout=subprocess.DEVNULL, stderr=subprocess.DEVNULL)

    def database(self) -> str:
        with sqlite3.connect("db") as database:
            database.executescript(SCHEMA.read_text())
        return SQLITE.format(here=self.here)

    def adaptor(self):
        return Pdnsutil(ORIGIN, str(self.here))

    def begin(self) -> subprocess.Popen:
        return self.start("pdns_server", "--config-dir=.")


class RunningPdnsOnPostgres(RunningPdns):
    def database(self) -> str:
        self.postgres = Postgres()
        self.postgres.begin()
        return self.postgres.settings()

    def end(self) -> None:
        super().end()
        self.postgres.end()


API = "webserver=yes\nwebserver-address={at}\nwebserver-port={port}\napi=yes\napi-key=of-a-test\n"


class RunningPdnsByApi(RunningPdnsOnPostgres):
    def database(self) -> str:
        self.api = free_port()
        Path("secret").write_text("of-a-test\n")
        return super().database() + API.format(at=HERE, port=self.api)

    def adaptor(self):
        return Api(ORIGIN, f"http://{HERE}:{self.api}", "secret")


KNOT = """server:
  rundir: "{here}/run"
  listen: {at}@{port}
control:
  listen: "{here}/run/knot.sock"
database:
  storage: "{here}/db"
{keystore}policy:
  - id: m
    keystore: {store}
    manual: on
    cds-cdnskey-publish: rollover
template:
  - id: default
    storage: "{here}"
    file: "zone"
    zonefile-sync: -1
    zonefile-load: difference-no-serial
    journal-content: all
    dnssec-signing: {signing}
    dnssec-policy: m
zone:
  - domain: {zone}
"""


class RunningKnot(RunningSigner):
    keystore, kept_in = "", "default"

    def conf(self, signing: str) -> None:
        Path("knot.conf").write_text(KNOT.format(
            here=self.here, at=HERE, port=self.port, signing=signing, zone=ORIGIN,
            keystore=self.keystore, store=self.kept_in))

    def prepare(self) -> None:
        Path("run").mkdir()
        Path("db").mkdir()
        self.conf("off")
        self.store = Knot(ORIGIN, str(self.here / "knot.conf"))

    def begin(self) -> subprocess.Popen:
        process = self.process = self.start("knotd", "-c", "knot.conf")
        self.wait()
        self.conf("on")
        subprocess.run(["knotc", "-c", "knot.conf", "reload"], stdout=subprocess.DEVNULL)
        time.sleep(1)
        return process


KEYSTORE = f"""keystore:
  - id: hsm
    backend: pkcs11
    config: "pkcs11:token=knot;pin-value=1234 {SOFTHSM}"
"""


class RunningKnotByPkcs11(RunningKnot):
    """Its keys are in SoftHSM, and their public halves in files."""

    keystore, kept_in = KEYSTORE, "hsm"

    def prepare(self) -> None:
        Path("tokens").mkdir()
        Path("softhsm2.conf").write_text(f"directories.tokendir = {self.here}/tokens\n")
        os.environ["SOFTHSM2_CONF"] = f"{self.here}/softhsm2.conf"
        subprocess.run(["softhsm2-util", "--init-token", "--free", "--label", "knot", "--pin",
                        "1234", "--so-pin", "1234"], check=True, stdout=subprocess.DEVNULL)
        super().prepare()

    def make_keys(self) -> dict[str, Key]:
        return {name: self._generated(name, *how) for name, how in KEYS.items()}

    def _generated(self, name: str, algorithm: str, is_sep: bool) -> Key:
        """A key that is made there, with times that never come."""
        flags = ["ksk=yes", "zsk=no"] if is_sep else ["ksk=no", "zsk=yes"]
        far = [f"{it}={FAR}" for it in ("publish", "active")]
        number = self.keymgr("generate", f"algorithm={algorithm}", *flags, *far)
        data = self.keymgr("dnskey", number.split()[-1]).partition(" DNSKEY ")[2].strip()
        path = Path(f"K{ORIGIN}+{int(algorithm):03}+{Key.of(data).tag:05}.key")
        path.write_text(f"{ORIGIN} DNSKEY {data}\n")
        return Key.of(data, name, keyfiles.read(path))

    def keymgr(self, *words: str) -> str:
        return subprocess.check_output(["keymgr", "-c", "knot.conf", ORIGIN, *words], text=True)


NAMED = """options {{ directory "{here}"; pid-file "{here}/pid";
  session-keyfile "{here}/session.key"; key-directory "{here}";
  port {port}; listen-on {{ {at}; }}; listen-on-v6 {{ none; }};
  recursion no; notify no; dnssec-validation no; }};
{secret}
controls {{ inet {at} port {control} allow {{ any; }} keys {{ k; }}; }};
zone "{zone}" {{ type primary; file "{here}/zone"; auto-dnssec maintain; inline-signing yes;
  dnssec-dnskey-kskonly yes; }};
"""


class RunningBind(RunningSigner):
    def prepare(self) -> None:
        control = free_port()
        Path("rndc.conf").write_text(f"{SECRET}\noptions {{ default-key k; default-server {HERE}; "
                                     f"default-port {control}; }};\n")
        Path("conf").write_text(NAMED.format(here=self.here, at=HERE, port=self.port,
                                             secret=SECRET, control=control, zone=ORIGIN))
        # AppArmor goes by the path of a program.
        shutil.copy(shutil.which("named"), "named")
        args = Namespace(keys=[str(self.here)], SCRIPT="z.script", zone_file="zone",
                         signer_config=str(self.here / "rndc.conf"))
        self.store = InlineSigner(ORIGIN, args)

    def begin(self) -> subprocess.Popen:
        process = self.start("./named", "-g", "-n", "1", "-c", "conf")
        self.wait()
        time.sleep(1)
        return process


SERVERS = {"pdns": RunningPdns, "pdns-pgsql": RunningPdnsOnPostgres, "pdns-api": RunningPdnsByApi,
           "knot": RunningKnot, "knot-pkcs11": RunningKnotByPkcs11, "bind-inline": RunningBind}
