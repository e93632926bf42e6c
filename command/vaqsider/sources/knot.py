"""Knot's keys, by `keymgr ZONE list -j`. Their private halves are PEM files of its store."""

from __future__ import annotations

import base64
from pathlib import Path
from typing import TYPE_CHECKING, Callable

from ..errors import UNAVAILABLE, Failure
from ..signers import Key
from ..signers.knot import Knot, KnotKey
from . import Inventory, SourceKey, SourceOptions, expect, in_private

if TYPE_CHECKING:
    from cryptography.hazmat.primitives.asymmetric import ec, ed448, ed25519, rsa

STOPS = (
    "before anything else: 'manual: on' in the policy of {zone}, then 'knotc reload': Knot rolls"
    " nothing from then on. (Under 'manual: off' it may begin a roll at any time.)",
    "'cds-cdnskey-publish: rollover' in that policy: CDS is for the keys that the script says",
    "'vaqsider act --signer knot' goes on with the keys in Knot's store",
    "if Knot is to sign no more: 'dnssec-signing: off', with the signed file of 'vaqsider act' as"
    " its zone file, under a higher serial; and only after that 'knotc reload'",
)
OF_RSA = ("Modulus", "PublicExponent", "PrivateExponent", "Prime1", "Prime2", "Exponent1",
          "Exponent2", "Coefficient")


def inventory(zone: str, options: SourceOptions) -> Inventory:
    """What Knot's store has."""
    store = Knot(zone.rstrip(".") + ".", options.source)
    held = store.held()
    expect(bool(held), f"Knot has no keys for {zone}")
    keys, moving = [], []
    for it in held:
        moving += _moving(it)
        if it.is_published or it.is_active:
            pem, name = _pem(it, options.store), f"knot:{it.id}"
            keys.append(SourceKey(it.key, it.is_ksk, it.is_zsk, pem, reference=name))
    return Inventory(keys, moving, [text.format(zone=zone) for text in STOPS])


def _moving(held: KnotKey) -> list[str]:
    """What is in progress with a key. Times of the past that have led to its place don't count."""
    tag, times, now = held.key.tag, held.times, held.now
    if not (held.is_published or held.is_active):
        ahead = [it for it in ("publish", "pre-active", "ready", "active") if times[it] > now]
        return [f"key {tag} is to come in ({', '.join(ahead)}): wait until its roll is over"] \
            if ahead else []
    if held.is_odd or any(times[it] for it in ("retire", "remove")):
        return [f"key {tag} is on its way out, or in: wait until 'keymgr list' shows it removed or "
                "active only"]
    if held.is_ready:
        return [f"key {tag} waits for its DS: 'knotc zone-ksk-submitted', once the parent has it"]
    if held.is_published != held.is_active:
        return [f"key {tag} is published and not active: wait until it signs"]
    return []


def _pem(held: KnotKey, store: str | None) -> Callable[[], str] | None:
    """The private half, if a folder of Knot's keys is named."""
    if store is None:
        return None
    path = Path(store) / f"{held.id}.pem"

    def read() -> str:
        return from_pem(path.read_bytes(), held.key, str(path))

    return read


def from_pem(data: bytes, key: Key, where: str) -> str:
    """A private key in PEM as a file of BIND, if it is that of this key."""
    from cryptography.hazmat.primitives import serialization
    from cryptography.hazmat.primitives.asymmetric import ec, ed448, ed25519, rsa

    try:
        private = serialization.load_pem_private_key(data, password=None)
    except (ValueError, TypeError) as error:
        raise Failure(f"{where}: {error}", UNAVAILABLE) from None
    if isinstance(private, ec.EllipticCurvePrivateKeyWithSerialization):
        public, fields = _of_curve(private)
    elif isinstance(private, (ed25519.Ed25519PrivateKey, ed448.Ed448PrivateKey)):
        public, fields = _of_edwards(private)
    elif isinstance(private, rsa.RSAPrivateKeyWithSerialization):
        public, fields = _of_rsa(private)
    else:
        raise Failure(f"{where}: a kind of key that DNSSEC hasn't got", UNAVAILABLE)
    if base64.b64decode(key.data.split()[3]) != public:
        raise Failure(f"{where}: it isn't the private half of {key.tag}", UNAVAILABLE)
    return in_private(key.algorithm, fields)


# Each gives a key's public half as its DNSKEY record has it, and the fields of its private one.
def _of_curve(
    private: ec.EllipticCurvePrivateKeyWithSerialization
) -> tuple[bytes, dict[str, str]]:
    numbers, length = private.private_numbers(), (private.curve.key_size + 7) // 8
    point = numbers.public_numbers
    public = point.x.to_bytes(length, "big") + point.y.to_bytes(length, "big")
    return public, {"PrivateKey": _bytes(numbers.private_value, length)}


def _of_edwards(
    private: ed25519.Ed25519PrivateKey | ed448.Ed448PrivateKey
) -> tuple[bytes, dict[str, str]]:
    from cryptography.hazmat.primitives import serialization as of

    secret = private.private_bytes(of.Encoding.Raw, of.PrivateFormat.Raw, of.NoEncryption())
    public = private.public_key().public_bytes(of.Encoding.Raw, of.PublicFormat.Raw)
    return public, {"PrivateKey": base64.b64encode(secret).decode()}


def _of_rsa(private: rsa.RSAPrivateKeyWithSerialization) -> tuple[bytes, dict[str, str]]:
    numbers = private.private_numbers()
    of = numbers.public_numbers
    values = (of.n, of.e, numbers.d, numbers.p, numbers.q, numbers.dmp1, numbers.dmq1,
              numbers.iqmp)
    exponent, modulus = (base64.b64decode(_bytes(it)) for it in (of.e, of.n))
    length = len(exponent)
    head = bytes([length]) if length < 256 else b"\0" + length.to_bytes(2, "big")
    return head + exponent + modulus, dict(zip(OF_RSA, map(_bytes, values)))


def _bytes(number: int, size: int = 0) -> str:
    size = size or (number.bit_length() + 7) // 8
    return base64.b64encode(number.to_bytes(size, "big")).decode()
