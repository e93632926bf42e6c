"""Signers that run, in this process: what `pdnsutil`, `keymgr`, `knotc`, `rndc` and
`dnssec-settime` do to a database, and say of it, in the forms that the real tools print."""

from __future__ import annotations

import contextlib
import json
import re
from pathlib import Path
from unittest import mock

from vaqsider import keyfiles
from vaqsider.errors import Failure
from vaqsider.signers import Key, by_flags
from vaqsider.signers import daemon, inline, knot, pdns, pdns_api
from vaqsider.sources import bind as source_of_bind
from vaqsider.sources import opendnssec as source_of_ods
from vaqsider.sources import pdns as source_of_pdns

SAYERS = (daemon, pdns, knot, inline, source_of_bind, source_of_ods, source_of_pdns)
NOW = 1_700_000_000
NAMES = {8: "RSASHA256", 13: "ECDSAP256SHA256", 15: "ED25519"}


class Fake:
    """A database that counts its commands, and may refuse one."""

    def __init__(self) -> None:
        self.changes, self.fails_at, self.served = 0, None, []

    def faults(self) -> list[str]:
        """What no signer may leave, whatever it says of it."""
        return []

    def said(self, words, stdin: str = "", seconds: float = 0) -> str:
        words = list(words)
        if self.is_change(words):
            self.changes += 1
            if self.changes == self.fails_at:
                raise Failure(f"{words[0]}: database is locked", 69)
        text = self.does(words)
        if self.is_change(words):
            self.served.append(self.sets())
        return text

    @contextlib.contextmanager
    def installed(self):
        with contextlib.ExitStack() as stack:
            for module in SAYERS:
                if hasattr(module, "said"):
                    stack.enter_context(mock.patch.object(module, "said", self.said))
            yield self


class FakePdns(Fake):
    """What pdnsutil and pdns_control do."""

    def __init__(self, zone: str = "example.com") -> None:
        super().__init__()
        self.zone, self.keys, self.records = zone, [], {"CDS": [], "CDNSKEY": []}
        self.serial, self.direct, self.version, self.nsec3 = 1, "yes", "4.7", None
        # What has it give CDS of its own: metadata of the zone, and a setting for all zones.
        self.metadata, self.default = [], ""

    def is_change(self, words) -> bool:
        reading = ("show-zone", "list-zone", "export-zone-key", "current-config")
        return not any(it in words for it in reading)

    def sets(self):
        active = [it["key"] for it in self.keys if it["active"]]
        signers, zone = by_flags(active)
        return frozenset(it["key"] for it in self.keys if it["published"]), signers, zone

    def does(self, words) -> str:
        words = [it for it in words if not it.startswith("--config-dir")]
        if words[0] == "pdns_control":
            return (f"# direct-dnskey\tIt is\ndirect-dnskey={self.direct}\n"
                    f"# default-publish-cds\tIt is\ndefault-publish-cds={self.default}\n")
        verb, zone, *rest = words[1:]
        if zone != self.zone:
            raise Failure(f"pdnsutil: No such zone in the database: {zone}", 69)
        return getattr(self, verb.replace("-", "_"))(*rest) or ""

    def faults(self) -> list[str]:
        count = {kind: len(data) for kind, data in self.records.items()}
        return [] if count["CDS"] == count["CDNSKEY"] else [f"records: {count}"]

    def show_zone(self) -> str:
        rows = ["This is a Native zone"]
        if not any(it["active"] for it in self.keys):
            rows.append("Zone is not actively secured")
        rows += [f"Metadata items: {'' if self.metadata else 'None'}"]
        rows += [*(f"\t{kind}\t2" for kind in self.metadata), "Zone has NSEC semantics"]
        rows += ["keys: "] if self.keys else [f"No keys for zone '{self.zone}'."]
        for number, it in enumerate(self.keys, start=1):
            key, act = it["key"], "\t  Active" if it["active"] else "\tInactive"
            name, flags = NAMES[key.algorithm], key.data.split()[0]
            out = "  Published " if it["published"] else " Unpublished "
            if self.version != "4.7":
                act, out = f" active={it['active']}", f" published={it['published']}"
            rows.append(f"ID = {number} (CSK), flags = {flags}, tag = {key.tag}, algo = "
                        f"{key.algorithm}, bits = 256{act}{out} ( {name} ) ")
            rows.append(f"CSK DNSKEY = {self.zone}. IN DNSKEY {key.data} ; ( {name} )")
            rows.append(f"DS = {self.zone}. IN DS {key.tag} 13 2 00 ; ( SHA256 digest )")
        return "\n".join(rows) + "\n"

    def list_zone(self) -> str:
        rows = [("SOA", 300, f"ns h {self.serial} 3600 600 86400 60"), ("NS", 7200, "ns.")]
        rows += [(kind, 60, data) for kind, of in self.records.items() for data in of]
        text = "".join(f"{self.zone}\t{ttl}\tIN\t{kind}\t{data}\n" for kind, ttl, data in rows)
        return f"$ORIGIN .\n{text}"

    def import_zone_key(self, path, active, kind, published) -> str:
        file = keyfiles.read(Path(path).with_suffix(".key"))
        if not Path(path).is_file() or kind != ("ksk" if file.is_sep else "zsk"):
            raise Failure(f"Error: Unable to read file '{path}'", 69)
        self.keys.append({"key": Key.of(file.data), "active": active == "active",
                          "published": published == "published"})
        return f"{len(self.keys)}\n"

    def _set(self, number: str, name: str, value: bool) -> None:
        self.keys[int(number) - 1][name] = value

    def publish_zone_key(self, number): self._set(number, "published", True)
    def unpublish_zone_key(self, number): self._set(number, "published", False)
    def activate_zone_key(self, number): self._set(number, "active", True)
    def deactivate_zone_key(self, number): self._set(number, "active", False)

    def export_zone_key(self, number) -> str:
        return f"Private-key-format: v1.2\nAlgorithm: 13\nPrivateKey: {number}AAA\n"

    def replace_rrset(self, name, kind, ttl, *data): self.records[kind] = list(data)
    def delete_rrset(self, name, kind): self.records[kind] = []
    def rectify_zone(self): pass
    def set_nsec3(self, params): self.nsec3 = params
    def unset_nsec3(self): self.nsec3 = None
    def increase_serial(self): self.serial += 1


SECRET = "of-a-test"


class FakePdnsApi(FakePdns):
    """What the API of PowerDNS does. An answer to a method may be another one."""

    def __init__(self) -> None:
        super().__init__()
        self.presigned, self.instead, self.lacks = False, {}, ()

    @contextlib.contextmanager
    def installed(self):
        Path("secret").write_text(f"{SECRET}\n")
        with super().installed(), mock.patch.object(pdns_api, "exchange", self.exchange):
            yield self

    def exchange(self, method: str, url: str, secret: str, body) -> tuple[int, bytes]:
        if secret != SECRET:
            return 401, b"Unauthorized"
        if method in self.instead:
            return self.instead[method]
        if method != "GET":
            self.changes += 1
            if self.changes == self.fails_at:
                return 500, b'{"error": "database is locked"}'
        request = json.loads(body) if body else None
        value = self.answer(method, url.partition("/localhost")[2], request)
        if isinstance(value, str):
            return 422, json.dumps({"error": value}).encode()
        if method != "GET":
            self.served.append(self.sets())
        return 200, b"" if value is None else json.dumps(value).encode()

    def answer(self, method: str, path: str, request):
        """A value, nothing, or an error as a text."""
        if path == f"/zones?zone={self.zone}.":
            return [{"id": f"{self.zone}."}]
        if path.startswith("/zones?"):
            return []
        if path == "/config":
            return [{"name": name, "type": "ConfigSetting", "value": value} for name, value in
                    (("direct-dnskey", self.direct), ("default-publish-cds", self.default))]
        rest = path.removeprefix(f"/zones/{self.zone}.").strip("/").split("/")
        return getattr(self, f"_{method.lower()}")(*rest, request=request)

    def _get(self, what: str, number: str = "", request=None):
        if number:
            return {"privatekey": self.export_zone_key(number)}
        if what == "cryptokeys":
            return [self._members(number, it) for number, it in enumerate(self.keys, start=1)]
        if what == "metadata":
            return [{"kind": kind, "metadata": ["2"], "type": "Metadata"} for kind in self.metadata]
        rows = [("SOA", 300, [f"ns. h. {self.serial} 3600 600 86400 60"]), ("NS", 7200, ["ns."])]
        rows += [(kind, 60, data) for kind, data in self.records.items() if data]
        return {"presigned": self.presigned, "rrsets": [
            {"name": f"{self.zone}.", "type": kind, "ttl": ttl, "comments": [],
             "records": [{"content": it, "disabled": False} for it in data]}
            for kind, ttl, data in rows]}

    def _members(self, number: int, it: dict) -> dict:
        members = {"type": "Cryptokey", "id": number, "active": it["active"], "keytype": "csk",
                   "published": it["published"], "dnskey": it["key"].data, "bits": 256}
        return {name: value for name, value in members.items() if name not in self.lacks}

    def _post(self, _: str, request):
        private = request["privatekey"]
        file = next(it for it in Path().glob("K*.private") if it.read_text() == private)
        self.keys.append({"key": Key.of(keyfiles.read(file.with_suffix(".key")).data),
                          "active": request["active"], "published": request["published"]})
        return self._members(len(self.keys), self.keys[-1])

    def _put(self, what: str, number: str = "", request=None):
        if what == "cryptokeys":
            for name in ("active", "published"):
                if not isinstance(request.get(name), bool):
                    return f"Key '{name}' not present or not a Bool"
                self._set(number, name, request[name])
        if what == "" and "nsec3param" in request:
            self.nsec3 = request["nsec3param"] or None
        if what == "rectify" and not any(it["active"] for it in self.keys):
            return f"Zone '{self.zone}' is not DNSSEC signed, not rectifying."
        return None

    def _patch(self, _: str, request):
        for it in request["rrsets"]:
            data = [row["content"] for row in it.get("records", ())]
            if it["type"] == "SOA":
                self.serial = int(data[0].split()[2])
            else:
                self.records[it["type"]] = data


class FakeKnot(Fake):
    """What keymgr and knotc do."""

    def __init__(self) -> None:
        super().__init__()
        self.keys, self.clock, self.signed = {}, lambda: NOW, None
        self.conf = {
            "zone[example.com.]": ["zone.domain = example.com."],
            "template[default]": ["template[default].dnssec-signing = on",
                                  "template[default].dnssec-policy = m"],
            "policy[m]": ["policy[m].manual = on", "policy[m].cds-cdnskey-publish = rollover"],
        }

    def is_change(self, words) -> bool:
        return any(it in words for it in ("set", "import-bind", "zone-sign"))

    def held(self):
        store = knot.Knot("example.com.", None, self.clock)
        with mock.patch.object(knot, "said", self.does):
            return store.held(), store.now([])

    def sets(self):
        now = self.held()[1]
        return now.dnskey, now.signers & now.dnskey, now.zone

    def does(self, words, stdin: str = "") -> str:
        words = list(words)
        if words[0] == "knotc":
            return self._control([it for it in words[1:] if it != "-b"])
        words = words[1:]
        verb, *rest = words[1:]
        if verb == "list":
            rows = [{"id": name, **key} for name, key in self.keys.items()]
            return json.dumps([{k: v for k, v in it.items() if k != "key"} for it in rows])
        if verb == "dnskey":
            return f"example.com. DNSKEY {self.keys[rest[0]]['key'].data}\n"
        if verb == "import-bind":
            return self._import(Path(rest[0]))
        key = self.keys[rest[0]]
        for name, _, value in (it.partition("=") for it in rest[1:]):
            key[name] = value == "yes" if name in ("ksk", "zsk") else int(value)
        return "OK\n"

    def _import(self, path: Path) -> str:
        file = keyfiles.read(path)
        times = dict(re.findall(r"^(Publish|Activate): (\d+)$",
                                path.with_suffix(".private").read_text(), re.MULTILINE))
        far = {name: NOW * 2 if at.startswith("2099") else 1 for name, at in times.items()}
        self.keys[f"id{file.tag}"] = {
            "key": Key.of(file.data), "ksk": file.is_sep, "zsk": not file.is_sep,
            "public-only": False, **dict.fromkeys(knot.TIMES, 0),
            "publish": far.get("Publish", 1), "active": far.get("Activate", 1),
        }
        return f"id{file.tag}\nOK\n"

    def _control(self, words) -> str:
        if words[0] == "conf-read":
            if words[1] not in self.conf:
                raise Failure(f"error: (invalid identifier) {words[1]}", 69)
            return "\n".join(self.conf[words[1]]) + "\n"
        rows = [(300, "SOA"), (7200, "A")]
        return "".join(f"[example.com.] example.com. {ttl} {kind} x\n" for ttl, kind in rows)


class FakeBind(Fake):
    """What dnssec-settime and rndc do. Times are in the files of the keys. named gives what they
    ask for some syncs later."""

    def __init__(self, folder: Path) -> None:
        super().__init__()
        self.folder, self.policy, self.status = folder, False, "key maintenance: automatic"
        self.behind = 0

    def is_change(self, words) -> bool:
        return words[0] == "dnssec-settime" and "-p" not in words

    def sets(self):
        return ()

    def does(self, words) -> str:
        if words[0] == "rndc":
            return self._control(words)
        path = Path(words[-1]).with_suffix(".private")
        times = self._times(path)
        if "-p" in words:
            names = {"SYNC Publish": "SyncPublish", "SYNC Delete": "SyncDelete"}
            every = ("Created", *sorted(inline.TIMES), "DS Publish")
            return "".join(f"{it}: {times.get(names.get(it, it), 'UNSET')}\n" for it in every)
        text = path.read_text()
        options = {"-P": "Publish", "-A": "Activate", "-I": "Inactive", "-D": "Delete"}
        rest = words[1:-1]
        while rest:
            name = options[rest.pop(0)]
            if rest[0] == "sync":
                name = f"Sync{name}"
                rest.pop(0)
            value = rest.pop(0)
            text = re.sub(rf"^{name}: .*\n", "", text, flags=re.MULTILINE)
            at = {"none": "", "now": f"{name}: {NOW}\n", "now-1": f"{name}: {NOW - 1}\n"}
            text += at[value]
        path.write_text(text)
        return ""

    @staticmethod
    def _times(path: Path) -> dict[str, str]:
        return dict(re.findall(r"^(\w+): (\d+)$", path.read_text(), re.MULTILINE))

    def _control(self, words) -> str:
        if "zonestatus" in words:
            return f"name: example.com\nsigned serial: 7\n{self.status}\n"
        if "-status" in words:
            return "dnssec-policy: p\n" if self.policy else "Zone does not have dnssec-policy\n"
        if "sync" in words:
            self.behind -= 1
            if self.behind < 0 or not Path("zone.signed").exists():
                Path("zone.signed").write_text(self._signed() if self.behind < 0 else SOA)
            return ""
        return "Done signing with key 1/ECDSAP256SHA256\nSigning with key 9/ECDSAP256SHA256\n"

    def _signed(self) -> str:
        """The signed zone, by the times of the keys."""
        of = [(Key.of(keyfiles.read(path.with_suffix(".key")).data), self._times(path))
              for path in sorted(self.folder.glob("K*.private"))]

        def those(begin: str, *ends: str) -> list[Key]:
            return [key for key, times in of if begin in times and not times.keys() & set(ends)]

        signers, zone = by_flags(those("Activate", "Inactive", "Delete"))
        rows = [("DNSKEY", it.data) for it in those("Publish", "Delete")]
        # In the second of its deletion it comes in again.
        rows += [("CDNSKEY", key.data) for key, times in of
                 if "SyncPublish" in times and int(times.get("SyncDelete", NOW)) >= NOW]
        rows += [("RRSIG", f"{kind} 13 2 60 19700131000000 19700101000000 {it.tag} example.com. A")
                 for kind, by in (("DNSKEY", signers), ("SOA", zone)) for it in by]
        return SOA + "".join(f"example.com. 60 IN {kind} {data}\n" for kind, data in rows)


SOA = "example.com. 60 IN SOA ns. h. 7 3600 600 86400 60\n"
