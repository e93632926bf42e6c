"""All servers, resolvers and zones of a run."""

import asyncio
import random

from asking import ask
from clients import Clients
from keys import ZoneSigner
from parent import Parent
from places import ALL, PARENT, SERVERS
from processes import Processes, SceneFailure
from resolvers import Resolvers
from servers import Fleet
from zone import Zone


class LiveWorld:
    """Begins with a signed root and unsigned zones. `zones` has the letters of each zone's
    providers."""

    def __init__(self, folder, port, keyset, zones, seed):
        self.folder, self.port, self.keyset, self.zones = folder, port, keyset, zones
        self.seed = seed
        self.processes = Processes(folder)

    async def begin(self):
        self.fleet = Fleet(self.processes, self.port, random.Random(self.seed))
        self.parent = Parent(self.folder, self.fleet, self.zones, self.port)
        await self.parent.begin()
        self.zone_by_name = {name: await self.zone(name) for name in self.zones}
        self.fleet.start(self.zones)
        anchor = f". 3600 IN DS {self.parent.key.ds}"
        self.resolvers = Resolvers(self.processes, self.port, self.zones, anchor)
        self.resolvers.start()
        await self.are_up()

    async def zone(self, name):
        """A zone. Its servers give it unsigned."""
        zone = Zone(self, name, self.zones[name], random.Random(f"{self.seed} {name}"))
        zone.clients = Clients(name, random.Random(f"{self.seed} clients {name}"), self.port)
        signing = ZoneSigner(zone.folder, name, zone.letters)
        text = await signing.text(zone.first)
        self.fleet.write(zone.servers, name, text)
        return zone

    async def are_up(self):
        """Waits until each server and each resolver answers for each zone."""
        for address in ALL:
            for zone in self.zones_of(address):
                await self.is_up(address, zone)

    def zones_of(self, address):
        """The zones for which a server or a resolver answers."""
        if address in PARENT:
            return ["."]
        if address in SERVERS:
            return [name for name, zone in self.zone_by_name.items() if address in zone.servers]
        return [".", *self.zones]

    async def is_up(self, address, zone):
        for _ in range(100):
            self.processes.check()
            answer = await ask(address, self.port, zone, "SOA", address not in SERVERS)
            if answer is not None and answer.answer:
                return
            await asyncio.sleep(0.2)
        raise SceneFailure(f"{address} doesn't answer for {zone}\n{answer}")

    def close(self):
        self.processes.stop()
