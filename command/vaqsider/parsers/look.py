"""The words that look at servers, and at the zones of a folder."""

from __future__ import annotations

from ..arguments import number, span
from .common import KEYS, PARENT, PARENT_SERVER, PORT, SCRIPT, SERVER
from .word import Argument, Word, flag

WATCH = Word(
    "watch",
    "asks all servers whether they have what is due",
    """\
It says which server lacks what, and at the end the line of the report. The report's TTL is that of
the notes, or of --ttl. Each look at the parent notes the TTL of its DS set, if that is higher than
the noted one.
In each round it looks up the servers of the NS set that the parent gives and of the zone's own, and
asks each address of each. Only an answer with authority counts. A name without an address and an
address without an answer are lacking; so are the parent's servers if none of them names a server of
the zone. If all is well, it says whom it has asked.
The DNSKEY set has to be the records of the key files, none less and none more, with a valid
signature by each key that signs it. The SOA record, as one of the zone's sets, has to be signed by
each key that signs the zone, and by no other, and the signatures have to be valid. The DS set has
to be records of the keys that are due, with the digests of their key files, and of no other keys.
Once the parent has the DS set, CDS and CDNSKEY have to be out before that is noted or reported: a
parent that reads them may change it until then. A report is held up only by what it speaks of; what
is wrong in other sets is said too, and the status is 1 or, without a chain of trust, 3.
If a key file is missing, it says so, and calls nothing right. Of another signer's keys it compares
tag and algorithm, unless their files are there; DS records of keys that the script doesn't know are
then taken for that signer's.
With --state it also compares the signatures of the NS set, the serials with one another, and CDS
while it may be in. The exit status is then 1 if something lacks, and 3 if a resolver may find no
chain from some server's DS set to another's DNSKEY set, or from that to a third one's SOA or NS
set. That look is kept in ZONE.look beside the script, for 'check' and 'zones'.
""",
    (
        SCRIPT,
        KEYS,
        SERVER,
        PARENT_SERVER,
        PARENT,
        PORT,
        Argument(
            "--ttl", metavar="NUMBER", type=number,
            help="the TTL to report, if the notes don't say it",
        ),
        Argument("--every", metavar="SECONDS", type=span, default=10, help="how often to ask (10)"),
        Argument("--for", metavar="SECONDS", type=span, help="for how long to ask (once)"),
        flag("--call", "make the call, when it is time"),
        flag("--state", "only show what each server gives, also with no roll in progress"),
    ),
)

ZONES = Word(
    "zones",
    "shows the zones of a folder",
    """\
The metrics and the page say how each zone's last tick ended, since when it waits, and until when
all is signed.
The metrics are vaqsider_chain_safe, _next_seconds, _waits_for, _lines, and _findings, which 'check'
has; by the last 'watch --state' also _signatures_seconds, _servers_lacking and _look_age_seconds;
by the last 'tick' _tick_status, _tick_age_seconds, _tick_waits_seconds and _tick_next_seconds.
""",
    (
        Argument("FOLDER", help="its files ZONE.script are read"),
        flag("--prometheus", "print metrics"),
        flag("--html", "print a page with a picture of each zone"),
        Argument(
            "--out", metavar="FILE",
            help="write it there, all of it or nothing, as for Prometheus' textfile collector",
        ),
        Argument("--store", metavar="URL", help="copy the zones of this store there first"),
    ),
)

WORDS = (WATCH, ZONES)
