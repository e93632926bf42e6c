"""The validating resolvers, each of another maker or with other settings. The last one asks a cache
that doesn't validate."""

from places import (
    BEHIND, BIND, CACHE, CHILD, LEAST, LEAST_CACHE, LEAST_TTL, PARENT, POWERDNS, STRICT, UNBOUND,
)

UNBOUND_SERVER = """\
server:
  interface: {address}@{port}
  port: {port}
  do-ip6: no
  num-threads: 1
  do-daemonize: no
  use-syslog: no
  logfile: ""
  username: ""
  chroot: ""
  directory: "{folder}"
  pidfile: ""
  access-control: 127.0.0.0/8 allow
  do-not-query-localhost: no
  module-config: "{modules}"
  trust-anchor: "{anchor}"
  harden-algo-downgrade: {strict}
  max-udp-size: 4096
  val-log-level: 2
  log-servfail: yes
  ede: yes
remote-control:
  control-enable: no
"""
UNBOUND_STUB = """\
stub-zone:
  name: "{zone}"
"""
UNBOUND_ADDRESS = """\
  stub-addr: {address}@{port}
"""
# It forgets the cache's answers after a second. So it meets whatever the cache holds. It waits for
# the cache while that looks for another server: its usual retries are over within two seconds, and
# it gives SERVFAIL ("upstream server timeout").
UNBOUND_FORWARD = """\
server:
  cache-max-ttl: 1
  infra-cache-min-rtt: 1000
  infra-keep-probing: yes
forward-zone:
  name: "."
  forward-addr: {address}@{port}
"""
UNBOUND_LEAST = f"""\
server:
  cache-min-ttl: {LEAST_TTL}
"""
NAMED = """\
options {{
  directory "{folder}";
  managed-keys-directory "{folder}";
  pid-file "{folder}/pid";
  session-keyfile "{folder}/session.key";
  port {port};
  listen-on {{ {address}; }};
  listen-on-v6 {{ none; }};
  recursion yes;
  allow-query {{ any; }};
  dnssec-validation yes;
  max-udp-size 4096;
  empty-zones-enable no;
  notify no;
}};
controls {{ }};
zone "." {{ type hint; file "{folder}/hints"; }};
trust-anchors {{ . static-ds {tag} {algorithm} {digest_type} "{digest}"; }};
"""
RECURSOR = """\
local-address={address}
local-port={port}
socket-dir={folder}
config-dir={folder}
dont-query=
dnssec=validate
lua-config-file={folder}/anchor.lua
forward-zones-file={folder}/zones
hint-file=no
threads=1
daemon=no
disable-syslog=yes
write-pid=no
export-etc-hosts=no
extended-resolution-errors=yes
security-poll-suffix=
udp-truncation-threshold=4096
loglevel=3
"""


class Resolvers:
    """Writes the settings of the resolvers and starts them. `zones` has the letters of the
    providers of each child, and `anchor` is the DS record of the parent, which is the root."""

    def __init__(self, processes, port, zones, anchor):
        self.processes, self.port, self.zones, self.anchor = processes, port, zones, anchor

    def start(self):
        stubs = self.stubs()
        self.unbound("unbound", UNBOUND, stubs)
        self.unbound("unbound-strict", STRICT, stubs, strict="yes")
        self.named("bind", BIND)
        self.recursor("powerdns", POWERDNS)
        self.behind_cache("unbound-behind-cache", BEHIND, CACHE, stubs)
        self.behind_cache("unbound-least-ttl", LEAST, LEAST_CACHE, stubs + UNBOUND_LEAST)

    async def restart(self, name):
        """One of them starts again, with an empty cache."""
        await self.processes.restart(name)

    def folder(self, name):
        folder = self.processes.folder / name
        folder.mkdir()
        return folder

    def places(self):
        """Each zone with the addresses of its servers."""
        yield ".", PARENT
        for zone, letters in self.zones.items():
            yield zone, [address for letter in letters for address in CHILD[letter]]

    def stubs(self):
        text = ""
        for zone, addresses in self.places():
            text += UNBOUND_STUB.format(zone=zone)
            for address in addresses:
                text += UNBOUND_ADDRESS.format(address=address, port=self.port)
        return text

    def unbound(self, name, address, more, strict="no", modules="validator iterator"):
        folder = self.folder(name)
        text = UNBOUND_SERVER.format(
            address=address, port=self.port, folder=folder, anchor=self.anchor, strict=strict,
            modules=modules,
        )
        (folder / "conf").write_text(text + more)
        self.processes.start(name, "unbound", "-d", "-c", str(folder / "conf"))

    def behind_cache(self, name, address, cache, settings):
        """A resolver that asks a cache, which has these settings and doesn't validate."""
        self.unbound(f"cache-of-{name}", cache, settings, modules="iterator")
        self.unbound(name, address, UNBOUND_FORWARD.format(address=cache, port=self.port))

    def named(self, name, address):
        folder = self.folder(name)
        tag, algorithm, digest_type, digest = self.anchor.split()[-4:]
        text = NAMED.format(
            folder=folder, port=self.port, address=address, tag=tag, algorithm=algorithm,
            digest_type=digest_type, digest=digest,
        )
        hints = "".join(
            f". 3600000 IN NS p{number}.\np{number}. 3600000 IN A {address}\n"
            for number, address in enumerate(PARENT, 1)
        )
        (folder / "hints").write_text(hints)
        (folder / "conf").write_text(text)
        self.processes.start(name, "named", "-g", "-n", "1", "-c", str(folder / "conf"))

    def recursor(self, name, address):
        folder = self.folder(name)
        zones = "".join(
            f"{zone}={';'.join(f'{address}:{self.port}' for address in addresses)}\n"
            for zone, addresses in self.places()
        )
        anchor = " ".join(self.anchor.split()[-4:])
        (folder / "anchor.lua").write_text(f'clearTA()\naddTA(".", "{anchor}")\n')
        (folder / "zones").write_text(zones)
        text = RECURSOR.format(address=address, port=self.port, folder=folder)
        (folder / "recursor.conf").write_text(text)
        self.processes.start(name, "pdns_recursor", f"--config-dir={folder}")
