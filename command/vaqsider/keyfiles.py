"""Key files of BIND and ldns: `Kzone.+alg+tag.key`, with the private key beside it.

The DNSKEY record says what a key is. The name of its file doesn't."""

from __future__ import annotations

import base64
import binascii
import calendar
import re
import struct
import time
from pathlib import Path
from typing import TYPE_CHECKING, Sequence

from .errors import BROKEN, UNAVAILABLE, Failure

if TYPE_CHECKING:
    from keyset import Key

SEP, ZONE_KEY, REVOKED = 0x0001, 0x0100, 0x0080
RECORD = re.compile(
    r"(?P<owner>\S+)\s+(?:(?P<ttl>\d+)\s+)?(?:IN\s+)?(?:\d+\s+)?DNSKEY\s+"
    r"(?P<flags>\d+)\s+(?P<protocol>\d+)\s+(?P<algorithm>\d+)\s+(?P<key>[^;]+)",
    re.IGNORECASE,
)
CREATED = re.compile(r"^;\s*Created:\s*(\d{14})", re.MULTILINE)


class KeyFile:
    """A public key in a file."""

    # What a script calls its private half, if it is known.
    reference: str | None = None

    def __init__(self, path: str | Path) -> None:
        self.path = Path(path)
        if self.path.suffix != ".key":
            self.path = self.path.with_name(f"{self.path.name}.key")
        text = self.path.read_text(encoding="ascii", errors="replace")
        record = next(filter(None, map(RECORD.match, text.splitlines())), None)
        if record is None:
            raise Failure(f"{self.path}: no DNSKEY record")
        flags, self.algorithm = int(record["flags"]), int(record["algorithm"])
        if not flags & ZONE_KEY or flags & REVOKED:
            raise Failure(f"{self.path}: it is no zone key, or it is revoked")
        self.owner, self.is_sep = record["owner"].rstrip(".") or ".", bool(flags & SEP)
        self.tag = key_tag(flags, int(record["protocol"]), self.algorithm, record["key"])
        # The data of the DNSKEY record, as a zone file has it.
        self.data = " ".join(record.group("flags", "protocol", "algorithm", "key"))
        created = CREATED.search(text)
        stamp = time.strptime(created[1], "%Y%m%d%H%M%S") if created else None
        # `dnssec-keygen -L` gives a record a TTL.
        self.ttl = int(record["ttl"] or 0)
        self.creation = calendar.timegm(stamp) if stamp else int(self.path.stat().st_mtime)

    @property
    def private(self) -> Path:
        """The file of the private half. It may be away."""
        return self.path.with_suffix(".private")

    def line(self, is_csk: bool, reference: str | None = None) -> str:
        """The line that adds the key: as a CSK, or as what its SEP flag says. Its private half is
        where the reference says, or is the file beside it."""
        word = "add-csk" if is_csk else "add-ksk" if self.is_sep else "add-zsk"
        reference = reference or (self.private.name if self.private.is_file() else "-")
        parts = word, self.path.name, reference, self.algorithm, self.tag, self.creation, "yes"
        return " ".join(map(str, parts))


def key_tag(flags: int, protocol: int, algorithm: int, key: str) -> int:
    """The tag of a DNSKEY record (RFC 4034, appendix B)."""
    try:
        public = base64.b64decode("".join(key.split()), validate=True)
    except binascii.Error:
        raise Failure("a DNSKEY record whose key isn't in base 64") from None
    data = struct.pack("!HBB", flags, protocol, algorithm) + public
    total = sum(byte << 8 if index % 2 == 0 else byte for index, byte in enumerate(data))
    return (total + (total >> 16)) & 0xFFFF


def read(path: str | Path) -> KeyFile:
    """The key of a file. One with a number that no DNSKEY record has is refused by its name."""
    try:
        return KeyFile(path)
    except (ValueError, struct.error):
        raise Failure(f"{path or repr(path)}: no key file of BIND or ldns") from None


def find(key: Key, folders: Sequence[str | Path]) -> KeyFile:
    """The file of a key, which its reference names, with or without `.key`."""
    name = key.reference.rpartition("/")[2].removesuffix(".key")
    for path in (Path(folder) / f"{name}.key" for folder in folders):
        if path.is_file():
            file = read(path)
            if (file.tag, file.algorithm) != (key.tag, key.algorithm):
                raise Failure(f"{path}: its tag or algorithm isn't that of the script", BROKEN)
            file.reference = key.private
            return file
    places = ", ".join(map(str, folders))
    raise Failure(f"no key file for {key.reference} in {places}", UNAVAILABLE)
