#!/usr/bin/python3
"""A signer behind a hook, as a provider's service would be: `hooked.py FOLDER LETTERS VERB` answers
a verb of `vaqsider act --help`. Its database is `state.json` in the folder, and what it gives is in
`zone.signed`, which it makes with dnssec-signzone."""

import asyncio
import json
import os
import sys
from pathlib import Path

from by_command import TTL
from keys import ZoneKey, ZoneSigner, ZoneVersion

KINDS = ("dnskey", "signers", "zone", "cds")


class HookService:
    """The service, for one zone."""

    def __init__(self, folder, letters, zone):
        self.folder, self.letters, self.zone = folder, letters, zone
        self.state = folder / "state.json"

    def read(self):
        """The keys that it has to use, and the serial of what it gives."""
        return json.loads(self.state.read_text())

    def now(self):
        keys = self.read()["keys"]
        return {kind: [it["record"] for it in keys if it[kind]] for kind in KINDS}

    def publish(self, keys):
        self.put({"keys": keys, "serial": self.read()["serial"]})
        self.renew()

    def renew(self):
        """Signs anew. The state with the higher serial comes last."""
        state = self.read()
        serial, keys = state["serial"] + 1, state["keys"]
        of = {kind: tuple(self.key(it) for it in keys if it[kind]) for kind in KINDS}
        version = ZoneVersion(serial, TTL, TTL, of["dnskey"], of["signers"], of["zone"], of["zone"],
                              of["cds"] or None, of["signers"])
        signing = ZoneSigner(self.folder, self.zone, self.letters, f"{os.getpid()}-")
        self.replace(self.folder / "zone.signed", asyncio.run(signing.text(version)))
        self.put({**state, "serial": serial})

    def key(self, entry):
        path = str(Path(entry["file"]).with_suffix(""))
        algorithm, tag, record = entry["algorithm"], entry["tag"], entry["record"]
        return ZoneKey(entry["key"], "", algorithm, tag, path, self.zone, record)

    def put(self, value):
        self.replace(self.state, json.dumps(value))

    @staticmethod
    def replace(path, text):
        draft = path.with_name(f".{path.name}.draft")
        draft.write_text(text)
        os.replace(draft, path)


def main():
    folder, letters, verb = Path(sys.argv[1]), *sys.argv[2:]
    asked = json.load(sys.stdin)
    service = HookService(folder, letters, asked["zone"])
    if verb == "now":
        print(json.dumps(service.now()))
    elif verb == "lacks":
        print(json.dumps({"lacks": []}))
    elif verb == "ttls":
        print(json.dumps({"dnskey": TTL, "zone": TTL}))
    elif verb == "publish":
        service.publish(asked["keys"])
    else:
        service.renew()


if __name__ == "__main__":
    main()
