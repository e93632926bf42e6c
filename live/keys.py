"""Keys by `dnssec-keygen`, and zones signed by `dnssec-signzone`."""

import base64
import itertools
import re
from dataclasses import dataclass
from typing import Optional

from dnspython import dns, ec
from places import CHILD
from processes import SceneFailure, outcome, program

RSA, ECDSA = 8, 13
HOSTS = 12


@dataclass
class ZoneKey:
    """A key of a zone, by the reference that scripts have for it."""

    ref: str
    kind: str
    algorithm: int
    tag: int
    path: str
    zone: str
    dnskey: str
    lost: bool = False

    @property
    def ds(self):
        """The data of its DS record."""
        name = dns.name.from_text(self.zone)
        data = dns.rdata.from_text("IN", "DNSKEY", self.dnskey)
        return dns.dnssec.make_ds(name, data, "SHA256").to_text()


async def run(folder, *command):
    """Runs a tool in a folder to its end, and gives what it prints."""
    status, out, err = await outcome(program(command[0]), *command[1:], cwd=folder)
    if status:
        raise SceneFailure(f"{command[0]}: {err}")
    return out


async def make_key(folder, zone, ref, kind, algorithm):
    """Makes a key. In one folder `dnssec-keygen` gives each key another tag."""
    size = ["-b", "2048"] if algorithm == RSA else []
    flag = [] if kind == "zsk" else ["-f", "KSK"]
    name = await run(
        folder, "dnssec-keygen", "-q", "-K", str(folder), "-a", str(algorithm), *size, *flag, zone
    )
    path = folder / name.strip()
    lines = path.with_name(path.name + ".key").read_text().splitlines()
    text = next(line for line in lines if not line.startswith(";")).split(" DNSKEY ")[1]
    dnskey = dns.rdata.from_text("IN", "DNSKEY", text).to_text()
    return ZoneKey(ref, kind, algorithm, int(path.name.split("+")[2]), str(path), zone, dnskey)


@dataclass(frozen=True)
class ZoneVersion:
    """What is published of a zone. `cds` has the keys of CDS and CDNSKEY. It is empty for the entry
    that deletes, and None if there are no such sets. The keys of `cds_signers` sign them, and those
    of `changing`: these sign all that changes in the zone, and are the keys of `zone`, if none of
    them is lost. Answers that there is no such set have the TTL `negative`, unless that is 0."""

    serial: int
    ttl: int
    dnskey_ttl: int
    dnskey: tuple = ()
    signers: tuple = ()
    zone: tuple = ()
    changing: tuple = ()
    cds: Optional[tuple] = None
    cds_signers: tuple = ()
    negative: int = 0
    is_nsec3: bool = False

    @property
    def longest(self):
        """The highest TTL of all but the DNSKEY set."""
        return max(self.ttl, self.negative)


def plain_records(zone, version, providers):
    """The records of a zone, except those of DNSSEC."""
    ttl = version.ttl
    servers = {
        f"{provider.lower()}{number}.{zone}": address
        for provider in providers
        for number, address in enumerate(CHILD[provider], 1)
    }
    none = version.negative or ttl
    serial = f"{next(iter(servers))} mail.{zone} {version.serial}"
    yield f"{zone} {none} IN SOA {serial} 60 60 9999 {none}"
    for server, address in servers.items():
        yield f"{zone} {ttl} IN NS {server}"
        yield f"{server} {ttl} IN A {address}"
    for host in range(HOSTS):
        yield f"h{host}.{zone} {ttl} IN A 192.0.2.1"
    yield f"*.w.{zone} {ttl} IN A 192.0.2.1"


def key_records(zone, version):
    """The DNSKEY set, and CDS and CDNSKEY."""
    for key in version.dnskey:
        yield f"{zone} {version.dnskey_ttl} IN DNSKEY {key.dnskey}"
    if version.cds == ():
        yield f"{zone} {version.ttl} IN CDS 0 0 0 00"
        yield f"{zone} {version.ttl} IN CDNSKEY 0 3 0 AA=="
    for key in version.cds or ():
        yield f"{zone} {version.ttl} IN CDS {key.ds}"
        yield f"{zone} {version.ttl} IN CDNSKEY {key.dnskey}"


def private_key(path):
    """The private half of an ECDSA key of P-256, from the file beside that of its record."""
    text = path.with_suffix(".private").read_text()
    number = base64.b64decode(re.search(r"^PrivateKey: (.*)$", text, re.MULTILINE)[1])
    return ec.derive_private_key(int.from_bytes(number, "big"), ec.SECP256R1())


def zsks_of_one_tag(folder, zone):
    """Two ZSKs with the same tag: the name of the one's file, and the other's record."""
    found = {}
    while True:
        key = ec.generate_private_key(ec.SECP256R1())
        record = dns.dnssec.make_dnskey(key.public_key(), ECDSA)
        tag = dns.dnssec.key_id(record)
        if tag in found:
            path = folder / f"K{zone}+{ECDSA:03}+{tag:05}.key"
            return write_key(path, zone, key, record), found[tag]
        found[tag] = record


def write_key(path, zone, key, record):
    """Makes the files of a key, as BIND has them. Gives the name of that with its record."""
    path.write_text(f"{zone} IN DNSKEY {record.to_text()}\n")
    number = key.private_numbers().private_value.to_bytes(32, "big")
    path.with_suffix(".private").write_text(
        f"Private-key-format: v1.3\nAlgorithm: {ECDSA} (ECDSAP256SHA256)\n"
        f"PrivateKey: {base64.b64encode(number).decode()}\n"
    )
    return path.name


def covered(line):
    """Which set a line of a signed zone signs, if it is a signature."""
    words = line.split(None, 5)
    return words[4] if words[3] == "RRSIG" else None


def set_of(line):
    """The owner and the type of the set which a line is part of, or signs."""
    return line.split(None, 1)[0], covered(line) or line.split(None, 4)[3]


def tag_of(line):
    """The tag of the key that has made this signature."""
    return int(line.split()[10])


def sets_of(lines):
    """The records and the signatures of each set."""
    sets = {}
    for line in lines:
        records, signatures = sets.setdefault(set_of(line), ([], []))
        (signatures if covered(line) else records).append(line)
    return sets


class ZoneSigner:
    """Signs the versions of one zone in a folder. `letter` stands for the signer."""

    def __init__(self, folder, zone, providers, letter=""):
        self.folder, self.zone, self.providers = folder, zone, providers
        self.numbers = (f"{letter}{number}" for number in itertools.count())
        self.last, self.lifetime = [], 24 * 3600

    async def text(self, version):
        """The zone's file with the signatures that a version asks for."""
        plain = list(plain_records(self.zone, version, self.providers))
        if not version.dnskey:
            return "\n".join(plain) + "\n"
        keys = list(key_records(self.zone, version))
        options = ("-3", "-", "-H", "0") if version.is_nsec3 else ()
        lines = await self.signed([*plain, *keys], version.changing, *options)
        lines = [line for line in lines if covered(line) != "DNSKEY"]
        lines = self.as_it_was(lines, version)
        entry = await self.signed([plain[0], *keys], version.signers)
        lines += self.of_entry(entry, version)
        self.last = lines
        return "\n".join(lines) + "\n"

    def of_entry(self, entry, version):
        """The signatures of the DNSKEY set, and those of CDS and CDNSKEY that no key of the zone
        has made. The last ones of a lost key are kept."""
        lost = {key.tag for key in version.signers if key.lost}
        more = {key.tag for key in version.cds_signers} - {key.tag for key in version.changing}
        return [
            *(line for line in entry if covered(line) == "DNSKEY"),
            *(line for line in self.last if covered(line) == "DNSKEY" and tag_of(line) in lost),
            *(line for line in entry if covered(line) in ("CDS", "CDNSKEY")
              and tag_of(line) in more),
        ]

    def as_it_was(self, lines, version):
        """If a key of the zone is lost, its last signatures are kept, for each set that doesn't
        change. Only what changes is signed by the KSK in its place."""
        lost = {key.tag for key in version.zone if key.lost}
        able = {key.tag for key in version.zone} - lost
        before, kept = sets_of(self.last) if lost else {}, []
        for name, (records, signatures) in sets_of(lines).items():
            old, made = before.get(name, ([], []))
            made = [line for line in made if tag_of(line) in lost]
            if made and sorted(old) == sorted(records):
                signatures = [*made, *(line for line in signatures if tag_of(line) in able)]
            kept += [*records, *signatures]
        return kept

    async def signed(self, records, keys, *options):
        """The lines of these records, signed only by these keys."""
        able = [key.path for key in keys if not key.lost]
        number = next(self.numbers)
        source, result = self.folder / f"{number}.zone", self.folder / f"{number}.signed"
        source.write_text("\n".join(records) + "\n")
        if not able:
            return records
        await run(
            self.folder, "dnssec-signzone", "-q", "-z", "-P", "-O", "full", "-o", self.zone,
            "-e", f"now+{self.lifetime}", *options, "-f", str(result), str(source), *able,
        )
        return [line for line in result.read_text().splitlines() if not line.startswith(";")]
