"""The parent of all zones: a root zone, whose DS sets change on demand."""

import asyncio

from asking import data_of, watch
from keys import covered, make_key, run
from places import CHILD, PARENT

# The TTLs of "there is no DS", and of all sets except the DS sets.
NEGATIVE, LONG = 2, 3600


class Parent:
    """The root zone. It is signed again whenever a DS set changes, and its servers get it one by
    one. Each other DS set keeps its signature, as at a registry: of an equal set BIND keeps the old
    one with its TTL, takes the new signature in, and may answer without AD until it has checked
    that."""

    def __init__(self, folder, fleet, zones, port):
        self.folder, self.fleet, self.zones, self.port = folder, fleet, zones, port
        self.ds, self.serial, self.lock = {}, 0, asyncio.Lock()
        self.signatures = []

    async def begin(self):
        """Makes its key and its first version."""
        self.key = await make_key(self.folder, ".", "root", "ksk", 13)
        self.fleet.write(PARENT, ".", await self.text())

    def records(self):
        self.serial += 1
        yield f". {LONG} IN SOA p1. mail. {self.serial} 60 60 9999 {NEGATIVE}"
        for number, address in enumerate(PARENT, 1):
            yield f". {LONG} IN NS p{number}."
            yield f"p{number}. {LONG} IN A {address}"
        yield f". {LONG} IN DNSKEY {self.key.dnskey}"
        for zone, providers in self.zones.items():
            for provider in providers:
                for number, address in enumerate(CHILD[provider], 1):
                    server = f"{provider.lower()}{number}.{zone}"
                    yield f"{zone} {LONG} IN NS {server}"
                    yield f"{server} {LONG} IN A {address}"
            data, ttl = self.ds.get(zone, ((), 0))
            for one in data:
                yield f"{zone} {ttl} IN DS {one}"

    async def text(self):
        source, result = self.folder / "root.zone", self.folder / "root.signed"
        source.write_text("\n".join([*self.records(), *self.signatures]) + "\n")
        await run(
            self.folder, "dnssec-signzone", "-q", "-z", "-P", "-O", "full", "-o", ".",
            "-f", str(result), str(source), self.key.path,
        )
        lines = [line for line in result.read_text().splitlines() if not line.startswith(";")]
        self.signatures = [line for line in lines if covered(line) == "DS"]
        return "\n".join(lines) + "\n"

    async def change(self, zone, data, ttl):
        """Publishes a DS set of a zone. Without data it is the present one, with another TTL."""
        async with self.lock:
            self.ds[zone] = self.ds[zone][0] if data is None else sorted(data), ttl
            self.fleet.publish(PARENT, ".", await self.text())

    async def watch(self, zone):
        """Watches until all servers give the present DS set, or that of a later version."""
        serial = self.serial

        def has_serial(answer):
            return any(int(text.split()[2]) >= serial for text in data_of(answer, "SOA"))

        def has_set(answer):
            return data_of(answer, "DS") == set(self.ds[zone][0])

        await watch(PARENT, self.port, ".", "SOA", has_serial, f"version {serial}")
        await watch(PARENT, self.port, zone, "DS", has_set, "the new DS set")
