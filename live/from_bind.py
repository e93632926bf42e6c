"""Zones that BIND has signed by a dnssec-policy, and that come to the command."""

import asyncio
import shutil
import socket

from by_command import DS_TTL, KSK, TTL, WARNING, ZSK, Operator
from commanded import DATE, expect
from dnspython import dns
from keys import ZoneVersion, plain_records
from parent import NEGATIVE
from processes import SceneFailure

HERE = "127.0.0.1"
NAMED = """\
options {{
  directory "{folder}";
  pid-file "{folder}/pid";
  session-keyfile "{folder}/session.key";
  key-directory "{folder}";
  port {port};
  listen-on {{ {here}; }};
  listen-on-v6 {{ none; }};
  recursion no;
  notify no;
  allow-transfer {{ any; }};
  {serial}
}};
controls {{ }};
dnssec-policy "scene" {{
  keys {{ {keys} }};
  dnskey-ttl {ttl};
  max-zone-ttl {ttl};
  {nsec3}
}};
zone "{zone}" {{
  type primary;
  file "{folder}/zone";
  dnssec-policy "scene";
  inline-signing yes;
}};
"""
KSK_ZSK = "ksk lifetime unlimited algorithm 13; zsk lifetime unlimited algorithm 13;"
CSK = "csk lifetime unlimited algorithm 13;"
NSEC3 = "nsec3param iterations 0 optout no salt-length 0;"
BY_DATE = "serial-update-method date;"
PATIENCE = 60


def free_port():
    with socket.socket() as probe:
        probe.bind((HERE, 0))
        return probe.getsockname()[1]


class Bind:
    """BIND, which signs one zone in a folder of its own."""

    def __init__(self, zone, serial):
        self.zone, self.serial, self.port = zone, serial, free_port()
        self.folder = zone.folder / "bind"
        self.folder.mkdir()

    def start(self, **policy):
        version = ZoneVersion(self.serial, TTL, TTL)
        records = plain_records(self.zone.name, version, self.zone.letters)
        (self.folder / "zone").write_text(f"$TTL {TTL}\n" + "\n".join(records) + "\n")
        conf = self.folder / "conf"
        conf.write_text(NAMED.format(
            folder=self.folder, port=self.port, here=HERE, zone=self.zone.name, ttl=TTL, **policy
        ))
        name = f"signer-{self.zone.name.rstrip('.')}"
        self.zone.world.processes.start(name, "named", "-g", "-n", "1", "-c", str(conf))

    async def signed(self, denial):
        """The zone, once all of it is signed, and has NSEC or NSEC3."""
        for _ in range(PATIENCE * 2):
            await asyncio.sleep(0.5)
            dns_zone = await self.given()
            if dns_zone is not None and is_signed(dns_zone, denial):
                return dns_zone
        raise SceneFailure(f"BIND doesn't sign {self.zone.name}")

    async def given(self):
        return await zone_at(self.zone.name, self.port)


async def zone_at(name, port):
    """The zone as the server at a port gives it, or None."""
    dns_zone = dns.zone.Zone(name, relativize=False)
    try:
        await dns.asyncquery.inbound_xfr(HERE, dns_zone, port=port, timeout=5)
    except (dns.exception.DNSException, OSError, EOFError):
        return None
    return dns_zone


def types_of(dns_zone):
    """The types of each name, and the types that have signatures there."""
    for _, node in dns_zone.items():
        types = {dns.rdatatype.to_text(it.rdtype) for it in node if it.covers == 0}
        yield types, {dns.rdatatype.to_text(it.covers) for it in node if it.covers}


def is_signed(dns_zone, denial):
    """Whether each set is signed, and just this kind of denial is there. With NSEC3 its parameters
    have to be there too: BIND adds them once the chain is whole."""
    rows = list(types_of(dns_zone))
    kinds = {it for types, _ in rows for it in types if it in ("NSEC", "NSEC3")}
    is_whole = denial == "NSEC" or dns_zone.get_rdataset(dns_zone.origin, "NSEC3PARAM") is not None
    return kinds == {denial} and is_whole and all(types <= signed for types, signed in rows)


def ds_of(dns_zone):
    """The DS records of the zone's keys with the SEP flag."""
    keys, origin = dns_zone.get_rdataset(dns_zone.origin, "DNSKEY"), dns_zone.origin
    return [
        dns.dnssec.make_ds(origin, key, "SHA256").to_text() for key in keys if key.flags & 1
    ]


def from_bind(keys=KSK_ZSK, denial="NSEC", by_date=False):
    """A scene: BIND signs, then the command goes on with its keys, and rolls each of them."""

    async def scene(zone):
        operator = Operator(zone, serial=DATE if by_date else 1, by_date=by_date)
        bind = Bind(zone, operator.serial)
        nsec3, serial = NSEC3 if denial == "NSEC3" else "", BY_DATE if by_date else ""
        bind.start(keys=keys, nsec3=nsec3, serial=serial)
        dns_zone = await bind.signed(denial)
        await publish(operator, dns_zone)
        await take_over(operator, bind, "--csk" if keys == CSK else None)
        for path in sorted(bind.folder.glob("K*.key")):
            await operator.replace(*roll_of(path, keys))
        dns_zone = dns.zone.from_file(str(operator.signed), zone.name, relativize=False)
        expect(is_signed(dns_zone, denial), f"the zone isn't signed with {denial}")
        await operator.type("check", operator.script)

    return scene


async def publish(operator, dns_zone):
    """The zone as BIND has signed it, and its DS once caches hold no older zone."""
    zone, text = operator.zone, dns_zone.to_text(relativize=False)
    operator.publish(text)
    operator.signed.write_text(text)
    await asyncio.sleep(zone.world.fleet.SLOWEST + zone.first.longest + 1)
    await zone.world.parent.change(zone.name, ds_of(dns_zone), DS_TTL)
    await zone.world.parent.watch(zone.name)
    zone.is_secure(TTL)
    await asyncio.sleep(TTL + NEGATIVE + 1)


async def take_over(operator, bind, *how):
    """The command begins with BIND's keys. It doesn't with others."""
    files = sorted(bind.folder.glob("K*.key"))
    for path in files:
        for part in (path, path.with_suffix(".private")):
            shutil.copy(part, operator.folder)
    how = ["--signed", *filter(None, how), *operator.named(), "--before", DS_TTL, TTL, TTL]
    init = ("init", operator.zone.name, "--script", operator.script)
    others = [await operator.key(*KSK), await operator.key(*ZSK)]
    await operator.type(*init, *how, *others, ends=(WARNING,))
    expect(not operator.script.exists(), "keys come in that the zone hasn't got")
    await operator.type(*init, *(path.name for path in files), *how)


def roll_of(path, keys):
    """The roll of a key, the key, and the flag and the word for the new one."""
    if keys == CSK:
        return "csk-roll", path.name, KSK, "add-csk"
    is_ksk = " 257 " in path.read_text()
    return ("ksk-roll", path.name, KSK) if is_ksk else ("zsk-roll", path.name, ZSK)


HONEST = {
    "from-bind-ksk-zsk": from_bind(),
    "from-bind-csk": from_bind(CSK),
    "from-bind-nsec3": from_bind(denial="NSEC3"),
    "from-bind-serial-by-date": from_bind(by_date=True),
}
