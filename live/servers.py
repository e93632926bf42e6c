"""The authoritative servers: three of NSD and three of Knot. They get each version of a zone one
after another."""

import asyncio
import os
import random
import signal

from places import CHILD, PARENT
from processes import outcome, program

NSD = """\
server:
  ip-address: {address}@{port}
  do-ip6: no
  server-count: 1
  username: ""
  chroot: ""
  zonesdir: "{folder}"
  database: ""
  pidfile: "{folder}/pid"
  xfrdfile: ""
  xfrdir: "{folder}"
  zonelistfile: "{folder}/zone.list"
  rrl-ratelimit: 0
  rrl-whitelist-ratelimit: 0
remote-control:
  control-enable: no
"""
NSD_ZONE = """\
zone:
  name: "{zone}"
  zonefile: "{file}"
"""
KNOT = """\
server:
  rundir: "{folder}"
  listen: {address}@{port}
  udp-workers: 1
  tcp-workers: 1
  background-workers: 1
control:
  listen: "{folder}/knot.sock"
database:
  storage: "{folder}"
  timer-db-max-size: 10M
  journal-db-max-size: 10M
  kasp-db-max-size: 10M
log:
  - target: stderr
    any: notice
template:
  - id: default
    storage: "{folder}"
    zonefile-sync: -1
    zonefile-load: whole
    journal-content: none
zone:
"""
KNOT_ZONE = """\
  - domain: {zone}
    file: "{file}"
"""


def file_of(zone):
    return f"{zone.rstrip('.') or 'root'}.zone"


class SceneServer:
    """One authoritative server. It gives each version after a delay of its own."""

    def __init__(self, address, processes, port):
        self.address, self.processes, self.port = address, processes, port
        self.name = f"{self.maker}-{address}"
        self.folder = processes.folder / self.name
        self.folder.mkdir()
        self.pending, self.tasks = {}, set()

    def start(self, zones):
        """Starts it with its settings: those of the server, and those of each zone."""
        text = self.settings.format(address=self.address, port=self.port, folder=self.folder)
        text += "".join(self.of_zone.format(zone=zone, file=file_of(zone)) for zone in zones)
        conf = self.folder / "conf"
        conf.write_text(text)
        self.processes.start(self.name, *self.command, "-c", str(conf))

    def write(self, zone, text):
        """Puts a zone's file in the place of the old one."""
        path = self.folder / file_of(zone)
        new = path.with_suffix(".new")
        new.write_text(text)
        os.replace(new, path)

    def publish(self, zone, text, delay):
        """Gives a version of a zone after this many seconds, unless a later one came before it."""
        number = self.pending[zone] = self.pending.get(zone, 0) + 1
        task = asyncio.ensure_future(self._publish(zone, text, delay, number))
        self.tasks.add(task)
        task.add_done_callback(self.tasks.discard)

    async def _publish(self, zone, text, delay, number):
        await asyncio.sleep(delay)
        if number < self.pending[zone]:
            return
        self.write(zone, text)
        await self.reload(zone)


class NsdServer(SceneServer):
    maker, command, settings, of_zone = "nsd", ("nsd", "-d"), NSD, NSD_ZONE

    async def reload(self, zone):
        self.processes.signal(self.name, signal.SIGHUP)


class KnotServer(SceneServer):
    maker, command, settings, of_zone = "knot", ("knotd",), KNOT, KNOT_ZONE

    async def reload(self, zone):
        command = [program("knotc"), "-s", str(self.folder / "knot.sock"), "zone-reload", zone]
        await outcome(*command)


class Fleet:
    """All authoritative servers, by their addresses."""

    # The longest that a server takes to get a version.
    SLOWEST = 1.5

    def __init__(self, processes, port, dice=random):
        self.dice = dice
        makers = {address: NsdServer for address in (PARENT[0], CHILD["A"][0], CHILD["B"][0])}
        self.servers = {
            address: makers.get(address, KnotServer)(address, processes, port)
            for address in (*PARENT, *CHILD["A"], *CHILD["B"])
        }

    def write(self, addresses, zone, text):
        for address in addresses:
            self.servers[address].write(zone, text)

    def start(self, zones):
        """Starts all servers. `zones` has the letters of the providers of each zone."""
        for address, server in self.servers.items():
            served = [
                zone for zone, letters in zones.items()
                if any(address in CHILD[letter] for letter in letters)
            ]
            server.start(["."] if address in PARENT else served)

    def publish(self, addresses, zone, text):
        """Gives a version to servers, to each after a delay of its own."""
        for address in addresses:
            self.servers[address].publish(zone, text, self.dice.uniform(0, self.SLOWEST))
