"""PowerDNS by its HTTP API, from any host that reaches it: `webserver=yes`, `api=yes` and `api-key`
in `pdns.conf`. The key of the API is in a file of its own, so that no list of processes has it."""

from __future__ import annotations

import http.client
import json
import time
import urllib.error
import urllib.parse
import urllib.request
from pathlib import Path
from typing import Any, Iterator, Mapping

from ..errors import UNAVAILABLE, USAGE, Failure
from . import Key
from .daemon import LOCKED, PAUSE, SECONDS, SignerStep
from .pdns import PdnsKey, PowerDns, StoredRecord, presigned

FLAGS = {"activate": {"active": True}, "deactivate": {"active": False},
         "publish": {"published": True}, "unpublish": {"published": False}}
PATHS = "/api/v1/servers/localhost"
# All that it says if PowerDNS can't do its work now, as if another program has locked its database.
UNSAID = b"Internal Server Error"


class NoRedirect(urllib.request.HTTPRedirectHandler):
    """The key of the API goes to no other place."""

    def redirect_request(self, *_: object) -> None:
        return None


OPENER = urllib.request.build_opener(NoRedirect, urllib.request.ProxyHandler({}))


def exchange(method: str, url: str, secret: str, body: bytes | None) -> tuple[int, bytes]:
    """What the API answers: its status, and a text. While another program has locked its database
    it is asked again after a pause, until its time is over."""
    end = time.monotonic() + SECONDS
    while True:
        status, text = _answer(method, url, secret, body)
        if not _is_locked(method, status, text) or time.monotonic() + PAUSE > end:
            return status, text
        time.sleep(PAUSE)


def _is_locked(method: str, status: int, text: bytes) -> bool:
    """Whether an answer may mean that the database is locked, and the request can be made once
    more. (One that adds a key might add two, if it isn't said that nothing has changed.)"""
    is_again = method != "POST" and text.strip() == UNSAID
    return status == 500 and (is_again or LOCKED.encode() in text)


def _answer(method: str, url: str, secret: str, body: bytes | None) -> tuple[int, bytes]:
    """One answer, whatever its status is."""
    asked = urllib.request.Request(url, body, method=method, headers={
        "X-API-Key": secret, "Content-Type": "application/json"})
    try:
        try:
            answer = OPENER.open(asked, timeout=SECONDS)
        except urllib.error.HTTPError as error:
            answer = error
        with answer:
            return answer.status, answer.read()
    except (OSError, http.client.HTTPException, ValueError) as error:
        why = getattr(error, "reason", "") or error
        raise Failure(f"{method} {url}: {why}", UNAVAILABLE) from None


class Api(PowerDns):
    """PowerDNS at a URL, as http://127.0.0.1:8081, with a file that has the key of its API."""

    name = "pdns-api"

    def __init__(self, origin: str, url: str, secret: str | None, nsec3: str | None = None) -> None:
        super().__init__(origin, nsec3)
        if not url.startswith(("http://", "https://")):
            raise Failure(f"{url}: the URL of an API begins with http:// or https://", USAGE)
        if secret is None:
            raise Failure("name the file with the key of PowerDNS's API: --signer-config of an act "
                          "or a plan, --store of an import", USAGE)
        self.url = url.rstrip("/")
        self.secret = Path(secret).read_text(encoding="ascii").strip()
        self._id: str | None = None

    # How it is asked

    def ask(self, method: str, path: str, body: Any = None) -> Any:
        """The value that the API answers."""
        made = None if body is None else json.dumps(body).encode()
        status, text = exchange(method, f"{self.url}{PATHS}{path}", self.secret, made)
        where = f"{method} {self.url}{PATHS}{path}: {status}"
        if text.strip() == UNSAID:
            raise Failure(f"{where}: {UNSAID.decode()}: its log says why", UNAVAILABLE)
        try:
            answer = json.loads(text) if text.strip() else None
        except ValueError:
            raise Failure(f"{where}: what it says is no JSON", UNAVAILABLE) from None
        if not 200 <= status < 300:
            why = answer.get("error") if isinstance(answer, dict) else None
            raise Failure(f"{where}: {why or 'refused'}", UNAVAILABLE)
        return answer

    def step(self, method: str, path: str, body: Any = None, shown: Any = None) -> SignerStep:
        """A request. What is secret of it is shown otherwise."""
        text = "" if body is None else json.dumps(shown or body)

        def late() -> tuple[str, ...]:
            self.ask(method, self.at(path), body)
            return ()

        return SignerStep(tuple(filter(None, (method, f"{self.url}{PATHS}{path}", text))), late)

    def at(self, path: str) -> str:
        """A path, with what the API calls the zone."""
        return path.replace("ZONE", self.id())

    def id(self) -> str:
        if self._id is None:
            origin = "." if self.zone == "." else f"{self.zone}."
            found = self.ask("GET", f"/zones?zone={urllib.parse.quote(origin)}")
            try:
                self._id = next((str(it["id"]) for it in found), None)
            except (TypeError, KeyError):
                raise self._odd("zones") from None
            if self._id is None:
                raise Failure(f"PowerDNS has no zone {self.zone}", UNAVAILABLE)
        return self._id

    def _odd(self, what: str) -> Failure:
        return Failure(f"{self.url}: what it says of {what} isn't known", UNAVAILABLE)

    # What is there

    def zone_answer(self) -> dict[str, Any]:
        answer = self.ask("GET", self.at("/zones/ZONE"))
        if not isinstance(answer, dict) or not isinstance(answer.get("rrsets"), list):
            raise self._odd("the zone")
        if answer.get("presigned"):
            raise presigned(self.zone)
        return answer

    def held(self) -> list[PdnsKey]:
        self.zone_answer()
        try:
            return [self._held(it) for it in self.ask("GET", self.at("/zones/ZONE/cryptokeys"))]
        except (KeyError, TypeError, ValueError):
            raise self._odd("keys") from None

    @staticmethod
    def _held(answer: Mapping[str, Any]) -> PdnsKey:
        is_active, is_published = answer["active"], answer["published"]
        if not isinstance(is_active, bool) or not isinstance(is_published, bool):
            raise ValueError("flags")
        return PdnsKey(str(answer["id"]), Key.of(answer["dnskey"]), is_active, is_published)

    def records(self) -> list[StoredRecord]:
        try:
            return [StoredRecord(of["name"], int(of["ttl"]), of["type"], it["content"])
                    for of in self.zone_answer()["rrsets"] for it in of["records"]
                    if not it["disabled"]]
        except (KeyError, TypeError, ValueError):
            raise self._odd("records") from None

    def private(self, held: PdnsKey) -> str:
        answer = self.ask("GET", self.at(f"/zones/ZONE/cryptokeys/{held.id}"))
        private = answer.get("privatekey") if isinstance(answer, dict) else None
        if not isinstance(private, str):
            raise self._odd(f"the private half of {held.key}")
        return private

    def metadata(self) -> set[str]:
        try:
            return {it["kind"] for it in self.ask("GET", self.at("/zones/ZONE/metadata"))
                    if it["metadata"]}
        except (KeyError, TypeError):
            raise self._odd("metadata") from None

    def settings(self) -> dict[str, str]:
        try:
            return {it["name"]: it["value"] for it in self.ask("GET", "/config")}
        except (KeyError, TypeError):
            raise self._odd("its settings") from None

    # What has to be done

    def imported(self, key: Key) -> SignerStep:
        kind = "ksk" if key.is_sep else "zsk"
        body = {"keytype": kind, "active": False, "published": False}
        private = key.at_hand().private.read_text(encoding="ascii")
        return self.step("POST", "/zones/ZONE/cryptokeys", {**body, "privatekey": private},
                         {**body, "privatekey": f"that of {key}"})

    def flagged(self, verb: str, held: PdnsKey) -> SignerStep:
        """The API wants both flags: what isn't said of `published` is true."""
        body = {"active": held.is_active, "published": held.is_published, **FLAGS[verb]}
        path = f"/zones/ZONE/cryptokeys/{held.id}"
        return self.step("PUT", path, body, FLAGS[verb])

    def placed(self, data: dict[str, list[str]], ttl: int) -> Iterator[SignerStep]:
        """All sets by one request."""
        yield self.step("PATCH", "/zones/ZONE", {"rrsets": [
            self._set(kind, ttl, rows) for kind, rows in data.items()]})

    def _set(self, kind: str, ttl: int, rows: list[str]) -> dict[str, object]:
        name = "." if self.zone == "." else f"{self.zone}."
        if not rows:
            return {"name": name, "type": kind, "changetype": "DELETE"}
        records = [{"content": it, "disabled": False} for it in rows]
        return {"name": name, "type": kind, "ttl": ttl, "changetype": "REPLACE",
                "records": records}

    def renew(self) -> Iterator[SignerStep]:
        """A changed SOA record has PowerDNS forget what it has in its caches."""
        params = self.params()
        if params is not None:
            yield self.step("PUT", "/zones/ZONE", {"nsec3param": params})
        path = "/zones/ZONE"
        words = "PATCH", f"{self.url}{PATHS}{path}", "the SOA record with a higher serial"
        yield SignerStep(words, self._raised)
        yield SignerStep(("PUT", f"{self.url}{PATHS}{path}/rectify"), self._rectified)
        yield self.step("PUT", "/zones/ZONE/notify")

    def _raised(self) -> SignerStep:
        soa = self.soa()
        mname, rname, serial, *rest = soa.data.split()
        higher = str((int(serial) + 1) % 2**32 or 1)
        made = self._set("SOA", soa.ttl, [" ".join([mname, rname, higher, *rest])])
        return self.step("PATCH", "/zones/ZONE", {"rrsets": [made]})

    def _rectified(self) -> SignerStep | tuple[str, ...]:
        """The API rectifies only what is signed."""
        if not any(it.is_active for it in self.held()):
            return ()
        return self.step("PUT", "/zones/ZONE/rectify")
