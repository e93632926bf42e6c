"""What `import` does with servers that are files, after it has read what other systems say
(import_sources.py)."""

from __future__ import annotations

from pathlib import Path
from unittest import mock

from tests.command import import_sources, stores
from tests.command.import_sources import ZONE, of_sources
from tests.command.terminal import folder, typed
from vaqsider import importing, keyfiles
from vaqsider.signers import Key
from vaqsider.sources import Inventory, SourceKey

KSK, ZSK = "Kexample.com.+013+64103.key", "Kexample.com.+013+46350.key"
ASKED = ["import", "bind", ZONE, "--source", ".", "--server", "ns1", "--parent-server", "p",
         "--script", "new.script", "--before", "60", "60", "60"]


def serve(zone_tag: int = 46350) -> None:
    """Servers, as files, that give the zone of the stored key files."""
    for path in Path().glob("K*+10133.key"):
        path.unlink()
    text = "example.com. 60 IN {} {}\n"
    signed = "{0} 13 2 60 19740101000000 19700101000000 {1} example.com. AAAA"
    keys = [path.read_text().splitlines()[-1].split(" DNSKEY ")[1]
            for path in sorted(Path().glob("K*.key"))]
    made = {
        "DNSKEY": "".join(text.format("DNSKEY", it) for it in keys) +
        text.format("RRSIG", signed.format("DNSKEY", 64103)),
        "SOA": text.format("SOA", "ns. h. 7 3600 600 86400 60") +
        text.format("RRSIG", signed.format("SOA", zone_tag)),
        "NS": text.format("NS", "ns1.") + text.format("RRSIG", signed.format("NS", zone_tag)),
        "CDS": "", "CDNSKEY": "", "NSEC3PARAM": text.format("NSEC3PARAM", "1 0 0 ab"),
    }
    for kind, rows_ in made.items():
        Path(f"ns1.{kind}").write_text(rows_)
    Path("p.DS").write_text(text.format("DS", "64103 13 2 00"))


def begin(**how) -> None:
    """Servers that give the zone of two key files, which BIND uses."""
    serve(**how)
    for name in (KSK, ZSK):
        Path(name).with_suffix(".private").write_text("Publish: 1\nActivate: 1\n")


# When an import is typed, how, how it ends, and what it says, before a script is made.
EARLY = (
    (1000, ASKED[:-4], 64, "--before: say the highest TTLs"), (1000, ASKED, 1, "look again"),
    (1061, ASKED, 1, "from 1062 on"), (1062, [*ASKED[:-1], "61"], 1, "from 1063 on"),
)


def come():
    """The script is made once all was the same for long enough, and no earlier."""
    with folder(), stores.FakeBind(Path()).installed():
        begin()
        for now, words, status, says in EARLY:
            said, ends = typed(words, now)
            if ends != status or says not in said or Path("new.script").exists():
                yield f"import at {now} ends with {ends}: {said}"
        Path("ns1.NS").write_text(Path("ns1.NS").read_text().replace("ns1.", "ns3."))
        said, ends = typed(ASKED, 1070)
        if ends != 1 or "from 1132 on" not in said:
            yield f"import after a change ends with {ends}: {said}"
        said, ends = typed(ASKED, 1132)
        text = Path("new.script").read_text() if Path("new.script").exists() else ""
        if ends or "done algorithm-roll" not in text or "1. named may roll" not in said \
                or "--nsec3 '1 0 0 ab'" not in said \
                or Path("new.import").exists() or not Path("new.notes").exists():
            yield f"import ends with {ends}: {said}{text}"
        said, ends = typed(ASKED, 1200)
        if ends != 64 or "File exists" not in said:
            yield f"import over a script ends with {ends}: {said}"


def references():
    """What a private half is called that stays in its store, by its source and in the script; but
    one that is here is a file."""
    yield from of_sources()
    yield from of_pdns()
    for is_here, wanted in ((False, f"{KSK} knot:id 13"), (True, f"{KSK} {KSK[:-4]}.private 13")):
        with folder(), mock.patch.dict(importing.SOURCES, bind=_stored):
            serve()
            if is_here:
                Path(KSK).with_suffix(".private").touch()
            said, ends = typed([*ASKED, "--unchanged"], 1000)
            text = Path("new.script").read_text() if Path("new.script").exists() else ""
        if ends or wanted not in text:
            yield f"an import of keys in a store ends with {ends}: {said}{text}"


def of_pdns():
    """Its keys come out as files, or stay."""
    for words, wanted in (([], f"{KSK} {KSK[:-4]}.private 13"), (["--stay"], f"{KSK} pdns:1 13")):
        fake = stores.FakePdns()
        with folder(), fake.installed():
            serve()
            fake.keys += [{"key": Key.of(keyfiles.read(it).data), "active": True,
                           "published": True} for it in (KSK, ZSK)]
            said, ends = typed(["import", "pdns", *ASKED[2:3], *ASKED[5:], "--unchanged", *words],
                               1000)
            text = Path("new.script").read_text() if Path("new.script").exists() else ""
            is_out = Path(KSK).with_suffix(".private").is_file()
        if ends or wanted not in text or is_out == bool(words):
            yield f"an import of PowerDNS's keys {words} ends with {ends}: {said}{text}"


def _stored(*_):
    """The keys of the zone that is served, as a store has them."""
    keys = ((Key.of(keyfiles.read(it).data), it == KSK) for it in (KSK, ZSK))
    return Inventory([SourceKey(key, is_ksk, not is_ksk, reference="knot:id")
                      for key, is_ksk in keys], [], [])


def signed_by_others():
    """No script is made of a zone that other keys sign."""
    with folder(), stores.FakeBind(Path()).installed():
        begin(zone_tag=64103)
        said, ends = typed([*ASKED, "--unchanged"], 1000)
        if ends != 2 or "signed by 64103, not 46350" not in said or Path("new.script").exists():
            yield f"import of a zone that others sign ends with {ends}: {said}"


CHECKS = (*import_sources.CHECKS, come, references, signed_by_others)
COUNT = import_sources.COUNT + 2


def faults():
    """What `import` does otherwise than it should."""
    return [fault for check in CHECKS for fault in check()]
