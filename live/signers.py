"""The signers of the scenes: the tools of BIND and ldns, named and a hook; and what they share with
PowerDNS (pdns_signers.py) and Knot (knot_signers.py). Each has a folder of its own, with its
settings, its process and its database."""

import asyncio
import json
import re
import sys
from pathlib import Path

from by_command import TTL
from dnspython import dns
from from_bind import HERE, free_port, zone_at
from keys import run
from processes import SceneFailure, program

SECRET = "A" * 43 + "="
# A named that rndc controls, without its zone.
CONTROLLED = """\
options {{
  directory "{folder}"; pid-file "{folder}/pid"; session-keyfile "{folder}/session.key";
  key-directory "{keys}"; port {port}; listen-on {{ {here}; }}; listen-on-v6 {{ none; }};
  recursion no; notify no; allow-transfer {{ any; }}; dnssec-validation no;
}};
key k {{ algorithm hmac-sha256; secret "{secret}"; }};
controls {{ inet {here} port {control} allow {{ any; }} keys {{ k; }}; }};
"""
NAMED = CONTROLLED + """\
zone "{zone}" {{
  type primary; file "{folder}/zone";
  auto-dnssec maintain; inline-signing yes; dnssec-dnskey-kskonly yes;
}};
"""
RNDC = """\
key k {{ algorithm hmac-sha256; secret "{secret}"; }};
options {{ default-key k; default-server {here}; default-port {control}; }};
"""
# A tool that fails instead of its Nth call, once: `at` has N, and `count` how often it was called.
FAILING = """\
#!/bin/sh
cd {folder} && echo x >>count
[ "$(wc -l <count)" = "$(cat at)" ] && exit 9
exec {tool} "$@"
"""
PATIENCE = 15
HOOKED = Path(__file__).resolve().parent / "hooked.py"


def replace(path, text):
    """Puts another file in the place of one that somebody may be reading."""
    draft = path.with_suffix(".draft")
    draft.write_text(text)
    draft.replace(path)


class SceneSigner:
    """A signer of one zone."""

    # The tools by which the command has it work; the name of its source for `import`; whether it
    # signs by a CSK beside the KSK and the ZSK of its algorithm, as a CSK roll wants; how the zone
    # denies; and the options by which dnssec-keygen gives a key no times.
    tools, source, rolls_to_csk, denial, times_of_keys = (), None, False, "NSEC", ()

    def __init__(self, operator):
        self.operator, self.zone, self.port = operator, operator.zone, free_port()
        self.folder = operator.folder / self.name
        self.folder.mkdir()
        # Servers take nothing from it before the first act that ends well.
        self.serves = False

    def write(self, serial):
        """The unsigned zone, in a file."""
        self.operator.serial = serial
        text = f"$TTL {TTL}\n" + "\n".join(self.operator.records()) + "\n"
        replace(self.folder / "zone", text)

    async def change(self, serial):
        """The unsigned zone has other records, in this version."""

    def options(self):
        return ["--signer", self.name]

    def files(self):
        """The options of an act that a plan hasn't got."""
        return []

    def environment(self):
        """What its tools want in theirs."""
        return {}

    def end(self):
        """What is left to end after a scene, beside its processes."""

    def process(self, *words):
        name = f"{self.name}-{self.zone.name.rstrip('.')}"
        self.zone.world.processes.start(name, *words)

    def failing(self):
        """A folder with tools that fail once a file there says so."""
        folder = self.folder / "failing"
        folder.mkdir(exist_ok=True)
        for tool in self.tools:
            text = FAILING.format(folder=folder, tool=program(tool))
            (folder / tool).write_text(text)
            (folder / tool).chmod(0o755)
        return folder

    async def key(self, *flag, algorithm):
        """A new key of its own, or none: then the key is a file."""

    async def held(self):
        """The tags of the keys in its database that are published, and of those that are active;
        none if it has no database."""

    async def given(self):
        """The zone as it gives it."""
        return await zone_at(self.zone.name, self.port)

    async def is_up(self):
        for _ in range(PATIENCE * 5):
            if await self.given() is not None:
                return
            await asyncio.sleep(0.2)
        raise SceneFailure(f"{self.name} doesn't give {self.zone.name}")

    def write_key(self, record):
        """The key file of a public half: the private one stays where it is."""
        data = dns.rdata.from_text("IN", "DNSKEY", record)
        tag = dns.dnssec.key_id(data)
        name = f"K{self.zone.name}+{int(data.algorithm):03}+{tag:05}.key"
        (self.operator.folder / name).write_text(f"{self.zone.name} IN DNSKEY {record}\n")
        return name


class NamedSigner(SceneSigner):
    """A running named, by the times of its keys, which are in the operator's folder."""

    name, tools, source = "bind-inline", ("rndc", "dnssec-settime"), "bind"
    times_of_keys = ("-P", "none", "-A", "none")

    async def start(self, serial):
        self.write(serial)
        control = free_port()
        (self.folder / "rndc.conf").write_text(
            RNDC.format(here=HERE, control=control, secret=SECRET))
        (self.folder / "conf").write_text(NAMED.format(
            folder=self.folder, keys=self.operator.folder, here=HERE, port=self.port,
            control=control, secret=SECRET, zone=self.zone.name))
        self.process("named", "-g", "-n", "1", "-c", str(self.folder / "conf"))
        await self.is_up()

    def options(self):
        return ["--signer", "bind-inline", "--signer-config", self.folder / "rndc.conf"]

    def files(self):
        return ["--zone-file", self.folder / "zone"]

    def source_options(self):
        return ["--source", self.operator.folder]

    async def make_own_keys(self):
        """Keys whose times are now."""
        for flag in (("-f", "KSK"), ()):
            await run(self.operator.folder, "dnssec-keygen", "-q", "-a", "13", *flag,
                      self.zone.name)
        await self.rndc("sign")

    async def rndc(self, word):
        await run(self.folder, "rndc", "-c", "rndc.conf", word, self.zone.name)

    async def change(self, serial):
        self.write(serial)
        await self.rndc("reload")

    async def is_taken_over(self):
        """It goes on by the times of its keys."""

    async def held(self):
        """By the times in the files of private halves, which named takes."""
        found = {}
        for path in sorted(self.operator.folder.glob("K*.private")):
            times = dict(re.findall(r"^(\w+): (\d{14})$", path.read_text(), re.MULTILINE))
            found[int(path.stem.rpartition("+")[2])] = times
        return {tag for tag, it in found.items() if "Publish" in it and "Delete" not in it}, \
            {tag for tag, it in found.items()
             if "Activate" in it and not it.keys() & {"Inactive", "Delete"}}


class FileTools(SceneSigner):
    """The tools of BIND or ldns, which sign a file. An act by them may be killed at any moment."""

    async def start(self, serial):
        self.write(serial)

    async def given(self):
        made = self.folder / "zone.signed"
        return dns.zone.from_file(str(made), self.zone.name, relativize=False) \
            if made.exists() else None

    def files(self):
        return ["--zone-file", self.folder / "zone"]


class BindTools(FileTools):
    name, rolls_to_csk = "bind", True


class LdnsTools(FileTools):
    name, rolls_to_csk = "ldns", True


class HookSigner(FileTools):
    """Whatever else signs, by a hook."""

    name, rolls_to_csk = "hook", True

    async def start(self, serial):
        (self.folder / "state.json").write_text(json.dumps({"keys": [], "serial": serial}))

    def options(self):
        words = [sys.executable, str(HOOKED), str(self.folder), self.zone.letters]
        return ["--signer", f"hook {' '.join(words)} \"$1\""]

    def files(self):
        return []

    async def held(self):
        keys = json.loads((self.folder / "state.json").read_text())["keys"]
        return {it["tag"] for it in keys if it["dnskey"]}, \
            {it["tag"] for it in keys if it["signers"] or it["zone"]}
