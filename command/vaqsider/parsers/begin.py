"""The words that begin a script."""

from __future__ import annotations

from ..arguments import number
from .common import NEW_SCRIPT, PARENT, PARENT_SERVER, PORT, SERVER, SETS, ZONE
from .word import Argument, Word, flag, several

INIT = Word(
    "init",
    "begins a script",
    """\
Without --before no notes are begun, and each report has the TTL that 'watch --ttl' says.
""",
    (
        ZONE,
        Argument("KEYFILE", nargs="*", help="key files of BIND or ldns"),
        NEW_SCRIPT,
        Argument(
            "--before", metavar=SETS, nargs=3, type=number,
            help="begin notes too: the highest TTLs that servers gave so far, also with answers "
            "of no such set",
        ),
        flag("--csk", "a key with the SEP flag signs the zone too"),
        flag(
            "--signed",
            "the zone has been signed by just these keys, with their DS, for longer than "
            "every TTL: its servers are asked, and the script is made if all agree",
        ),
        SERVER,
        PARENT_SERVER,
        PARENT,
        PORT,
        flag("--although", "make it although they don't agree, or can't be asked"),
    ),
)

IMPORT = Word(
    "import",
    "brings in the keys of a zone that another system signs",
    """\
It asks that system, then all servers. If all agree, and it rolls no key, the script is made once
all was the same for longer than every TTL: then type the same again. It says what the other system
has to stop doing, and in which order. The first look is kept in ZONE.import beside the script; if
something has changed since, the time begins anew.
The exit status is 0 if the script is made, 1 if the same is to be typed again later, and 2 if the
system rolls keys, or a server gives something else.
  bind: its key files are taken where they are. A key of which all states are hidden stays out. For
    a dnssec-policy and for auto-dnssec maintain
  pdns, pdns-api: key files are written with their private halves, with mode 600; by --stay without
    them, and the script keeps pdns:ID. A key that is published and not active, or the other way
    round, is in a roll by hand: finish it, or take it back
  knot: key files are written, with their private halves if --store names Knot's folder of PEM
    files; else the script keeps knot:ID. First set manual: on, then 'knotc reload'
  opendnssec: key files are written by what servers give; the private halves stay in the PKCS#11
    store, and the script keeps pkcs11:id=.. of each. All states have to be omnipresent
  dnst: its key files are taken where they are. A roll that is in its state has to end there
""",
    (
        Argument(
            "SYSTEM", metavar="SYSTEM",
            choices=("bind", "knot", "pdns", "pdns-api", "opendnssec", "dnst"),
            help="bind, knot, pdns, pdns-api, opendnssec or dnst",
        ),
        ZONE,
        Argument(
            "--before", metavar=SETS, nargs=3, type=number,
            help="the highest TTLs that servers gave so far, also with answers of no such set",
        ),
        NEW_SCRIPT,
        Argument(
            "--source", metavar="PATH",
            help="where the system's settings are: BIND's key-directory, knot.conf, the folder of "
            "pdns.conf, the URL of PowerDNS's API, the socket of OpenDNSSEC's enforcer, or dnst's "
            "state file (its own place)",
        ),
        Argument(
            "--store", metavar="PATH",
            help="Knot's folder of PEM files, if the private halves have to come out; or the file "
            "with the key of PowerDNS's API",
        ),
        flag("--stay", "private halves stay in PowerDNS's database, which goes on to sign"),
        several("--keys", "FOLDER", "where to write key files (the folder of the script)"),
        flag("--unchanged", "all has been the same for longer than every TTL: look only once"),
        SERVER,
        PARENT_SERVER,
        PARENT,
        PORT,
    ),
)

WORDS = (INIT, IMPORT)
