"""Scenes of the command: what servers, a registrar or a parent do wrong. The command has to see
each fault before a resolver fails; in the one with a lie it sees the fault that clients meet."""

import asyncio
import json
import time

from by_command import BROKEN, DUE, KSK, LOCKED, OK, TTL, WARNING, ZSK, Operator
from dnspython import dns
from keys import private_key, run, zsks_of_one_tag
from places import CHILD
from processes import SceneFailure

# The DS TTL to which the registry raises the present set, and the unsigned zone's serial as a date.
RAISED, DATE = 25, 2026112701
# For how many seconds signatures are valid, if they soon expire.
SHORT = 40
# So often two acts run at once.
TIMES = 5


def expect(is_so, what):
    if not is_so:
        raise SceneFailure(what)


async def is_everywhere(zone):
    """Waits for as long as a server takes at most to give a version."""
    await asyncio.sleep(zone.world.fleet.SLOWEST + 1)


async def ds_ttl_raised(zone):
    """Between two rolls the registry raises the TTL of the same DS set. The next report of a KSK
    roll counts it."""
    operator = Operator(zone)
    ksk, _ = await operator.first_keys()
    await zone.world.parent.change(zone.name, None, RAISED)
    await zone.world.parent.watch(zone.name)
    await asyncio.sleep(5)
    await operator.replace("ksk-roll", ksk, KSK)
    noted = operator.script.with_suffix(".notes").read_text().splitlines()
    of_ds = [line.split() for line in noted if line.startswith("published ds ")]
    expect(any(int(ttl) == RAISED for _, _, _, ttl, _ in of_ds), f"the notes lack {RAISED}")
    await operator.type("check", operator.script)


def mistyped(records):
    """DS records with other last four digits of their digests."""
    return [record[:-4] + ("0000" if record[-4:] != "0000" else "1111") for record in records]


async def wrong_digest(zone):
    """The registrar types a digest wrong. The command doesn't go on until it is mended."""
    operator = Operator(zone)
    ksk, _ = await operator.first_keys()
    await operator.begin_roll("ksk-double-ds-roll", ksk, KSK)
    right = await operator.act()
    present = set(zone.world.parent.ds[zone.name][0])
    wrong = [*present, *mistyped([record for record in right if record not in present])]
    await zone.world.parent.change(zone.name, wrong, TTL)
    await zone.world.parent.watch(zone.name)
    await operator.act("--no-cds")
    output = await operator.watch("--call", seconds=5, ends=(DUE,))
    expect("DS" in output, f"the wrong digest isn't said: {output}")
    await zone.world.parent.change(zone.name, right, TTL)
    await operator.watch("--call")
    await operator.finish("ksk-double-ds-roll")


async def serial_by_date(zone):
    """The unsigned zone keeps a serial by date, above the seconds since 1970. Each version still
    reaches the secondaries."""
    operator = Operator(zone, serial=DATE, by_date=True)
    ksk, zsk = await operator.first_keys()
    await operator.replace("zsk-roll", zsk, ZSK)
    await operator.replace("ksk-roll", ksk, KSK)


async def unsigned(zone):
    """docs/EMERGENCY.md, "Going unsigned", by the command, in a zone with a serial by date."""
    operator = Operator(zone, serial=DATE, by_date=True)
    keys = await operator.first_keys()
    zone.clients.secure_from = float("inf")
    used = {int(key.split("+")[2].partition(".")[0]) for key in keys}
    free = next(tag for tag in range(65536) if tag not in used)
    await operator.call(f"add-csk none - 13 {free} now yes")
    await operator.call(f"start algorithm-roll {','.join(keys)} none now")
    await operator.call("set-stale none")
    line = "report1 algorithm-roll 0 now"
    await operator.type("call", operator.script, line, "--although", ends=(OK, WARNING))
    await operator.step("wait1 algorithm-roll now")
    *_, ttl, moment = operator.script.read_text().split()
    await asyncio.sleep(int(moment) + int(ttl) - time.time())
    await operator.step("wait2 algorithm-roll now")
    made = dns.zone.from_file(str(operator.signed), zone.name, relativize=False)
    expect(made.get_rdataset(made.origin, "DNSKEY") is None, "the DNSKEY set is still there")


async def lost_ksk(zone):
    """docs/EMERGENCY.md, "A lost KSK by the command": its last signature stays until the new KSK
    has its DS, and the command says until when it is valid."""
    operator = Operator(zone)
    ksk, _ = await operator.first_keys()
    (operator.folder / ksk).with_suffix(".private").unlink()
    await operator.begin_roll("ksk-double-ds-roll", ksk, KSK)
    done = json.loads(await operator.type(*operator.words_of_act()))
    expect(done["valid_until"].keys() == {ksk} and not done["cds"], f"an act says {done}")
    await operator.change_ds(await operator.act())
    await operator.watch("--call")
    await operator.finish("ksk-double-ds-roll")
    await operator.watch("--state")


async def signatures_expired(zone):
    """Signatures are renewed late. The command says until when they are valid, and that they soon
    expire, before they do."""
    operator = Operator(zone)
    await operator.first_keys()
    await operator.act("--lifetime", SHORT)
    expires = time.time() + SHORT
    await is_everywhere(zone)
    await operator.watch("--state")
    output = await operator.type("check", operator.script, ends=(DUE,))
    expect("signatures expire at" in output, f"the end of the signatures isn't said: {output}")
    await operator.act()
    await is_everywhere(zone)
    await operator.watch("--state")
    await operator.type("check", operator.script)
    await asyncio.sleep(expires + 2 * TTL - time.time())
    await operator.watch("--state")


async def comes_back_old(zone):
    """A lie: a secondary comes back with its copy of before two rolls. The command says that
    resolvers may find no chain of trust."""
    operator = Operator(zone)
    ksk, zsk = await operator.first_keys()
    old = operator.signed.read_text()
    await operator.replace("zsk-roll", zsk, ZSK)
    await operator.replace("ksk-roll", ksk, KSK)
    await operator.watch("--state")
    zone.world.fleet.publish(zone.servers[:1], zone.name, old)
    await is_everywhere(zone)
    output = await operator.watch("--state", ends=(BROKEN,))
    expect(zone.servers[0] in output, f"the server isn't named: {output}")
    await asyncio.sleep(10)


class OperatorByNames(Operator):
    """The command asks all servers that NS records name."""

    def parents(self):
        return ["--port", self.zone.world.port]

    def named(self):
        return self.parents()


async def without_address(zone):
    """One server gets no new version, and the address of its name can't be looked up. The command
    doesn't report before it has asked that server."""
    operator = OperatorByNames(zone)
    _, zsk = await operator.first_keys()
    await operator.begin_roll("zsk-roll", zsk, ZSK)
    operator.not_found = f"b1.{zone.name}".rstrip(".")
    operator.servers = [server for server in zone.servers if server != CHILD["B"][0]]
    await operator.act()
    output = await operator.watch("--call", seconds=5, ends=(DUE,))
    expect(f"{operator.not_found}: " in output, f"the server isn't named: {output}")
    operator.not_found, operator.servers = "", zone.servers
    await operator.act()
    await operator.watch("--call")
    await operator.finish("zsk-roll")


def with_wrong_key(operator, ksk, wrong):
    """The zone as it is signed, with another key in the place of that with its tag. The KSK has
    signed that set too."""
    made = dns.zone.from_file(str(operator.signed), operator.zone.name, relativize=False)
    keys = made.get_rdataset(made.origin, "DNSKEY")
    tag = dns.dnssec.key_id(wrong)
    given = [wrong if dns.dnssec.key_id(it) == tag else it for it in keys]
    (by,) = [it for it in keys if dns.dnssec.key_id(it) == tag_of(ksk)]
    rrset = dns.rrset.from_rdata_list(made.origin, keys.ttl, given)
    private, now = private_key(operator.folder / ksk), time.time()
    signature = dns.dnssec.sign(rrset, private, made.origin, by, now - 3600, now + 3600)
    for records in (given, [signature]):
        made.replace_rdataset(made.origin, dns.rdataset.from_rdata_list(keys.ttl, records))
    return made.to_text(relativize=False)


def tag_of(file):
    """The tag of a key by the name of its file."""
    return int(file.partition(".key")[0].rpartition("+")[2])


async def wrong_key(zone):
    """One server gives a DNSKEY record with the right tag and another key. The command doesn't
    report before that server has the right one."""
    operator = Operator(zone)
    ksk, zsk = await operator.first_keys()
    new, other = zsks_of_one_tag(operator.folder, zone.name)
    await operator.call(f"add {new}")
    await operator.call(f"start zsk-roll {zsk} {new} now")
    await operator.act()
    await is_everywhere(zone)
    liar = zone.servers[1]
    zone.world.fleet.publish([liar], zone.name, with_wrong_key(operator, ksk, other))
    await is_everywhere(zone)
    says = f"{liar}: DNSKEY {tag_of(new)} isn't that of {new}"
    for how in (["--call"], ["--state"]):
        output = await operator.watch(*how, seconds=3, ends=(DUE,))
        expect(says in output, f"the wrong key isn't said: {output}")
    await operator.act()
    await operator.watch("--call")
    await operator.finish("zsk-roll")


async def both(operator):
    """Acts twice at once, on the zone as it is. One waits for the other, or ends. Each version has
    a serial of its own, and that with the last one is in place, whole."""
    act = [*operator.words_of_act(), "--serial", "increment"]
    outputs = await asyncio.gather(*(operator.type(*act, ends=(OK, LOCKED)) for _ in range(2)))
    serials = [json.loads(text)["serial"] for text in outputs if text]
    await run(operator.folder, "dnssec-verify", "-q", "-o", operator.zone.name, operator.signed)
    text = operator.signed.read_text()
    made = dns.zone.from_text(text, operator.zone.name, relativize=False)
    is_last = serials and made.get_soa().serial == max(serials)
    expect(is_last and len(set(serials)) == len(serials), f"two acts have made {serials}")
    operator.publish(text)


async def acts_at_once(zone):
    """Two acts run at once, as one of an operator and one of a timer."""
    operator = Operator(zone)
    _, zsk = await operator.first_keys()
    await operator.begin_roll("zsk-roll", zsk, ZSK)
    for _ in range(TIMES):
        await both(operator)
    await operator.watch("--call")
    await operator.finish("zsk-roll")
    await operator.watch("--state")
    await operator.type("check", operator.script)


HONEST = {
    "command-ds-ttl-raised": ds_ttl_raised,
    "command-wrong-digest": wrong_digest,
    "command-wrong-key": wrong_key,
    "command-acts-at-once": acts_at_once,
    "command-serial-by-date": serial_by_date,
    "command-unsigned": unsigned,
    "command-lost-ksk": lost_ksk,
    "command-signatures-expired": signatures_expired,
}
