"""The words that sign and publish what is due."""

from __future__ import annotations

from ..arguments import number, span
from ..serial import POLICIES
from .common import DELAYS, DRY_RUN, KEYS, OUT, PARENT, PARENT_SERVER, PORT, SCRIPT, TTLS
from .word import Argument, Word, flag, several

ACT = Word(
    "act",
    "publishes what is due by the commands of a signer",
    """\
The signed zone is made in a private folder beside its place, and verified before it goes there,
with the mode and owner of the old one (the group, if you aren't root). The command may be run again
after a crash, and to renew signatures. DS records for the parent are printed, for the registrar.
With notes, the servers of the parent are asked for the DS set before it changes for the first
time: its TTL is noted. If one of them doesn't answer, nothing is published.
The last signed zone may be another signer's, also in BIND's raw form, if it is the file that is
written. CDS has the TTL of the SOA record. What was said of CDS is kept in ZONE.act beside the
script, which is also what an act locks: keep that file.
If the private half of a KSK isn't here, its last signature of the DNSKEY set stays, as long as it
is valid and the set is the same, and it is said until when. All else is signed anew. DS records are
printed all the same. CDS is left out if no key that is here may sign it.
Each signer has its own ways:
  bind: its tools of Debian 12 reach no PKCS#11 store
  pdns: it wants direct-dnskey=yes in pdns.conf: else PowerDNS gives CDS to no secondary; and no CDS
    of PowerDNS's own, by set-publish-cds. pdnsutil waits without a word for a database that another
    program has locked; an act gives that up after a minute
  pdns-api: pdns.conf has webserver=yes, api=yes and api-key too, and --signer-config is a file with
    that key, and nothing else. No redirect and no proxy is followed, and CDS and CDNSKEY change by
    one request
  knot: the zone has dnssec-signing: on, and its policy manual: on and cds-cdnskey-publish:
    rollover. For first keys load the zone with dnssec-signing: off, then turn that on and 'knotc
    reload': Knot goes on to give it unsigned until the first act. Knot warns of CDS for two keys in
    a ksk-double-ds-roll: they are what is due
  bind-inline: the zone has no dnssec-policy, and auto-dnssec maintain; inline-signing yes;
    dnssec-dnskey-kskonly yes; as BIND has it up to 9.18. The first folder of --keys is named's
    key-directory, and --zone-file its unsigned zone. Make new keys with no times, as 'dnssec-keygen
    -P none -A none': named uses others at once. Files keep owner and mode. An act ends once named
    gives what is due: it has 'rndc sync' write the signed zone, beside the unsigned one, and reads
    that. After a minute it gives up, and says what named lacks. Old signatures stay beside the new
    ones until their key leaves the DNSKEY set; the SOA record has only the new one
  hook: a command of the shell gets a verb as its first argument, and an object on standard input
    that has it too, as verb, with zone. It answers by JSON, and its exit status is 0. A zone that
    it signs already comes in by 'vaqsider init --signed'
The verbs of a hook:
  now: it answers dnskey, signers, zone and cds, lists of the keys in each, as the data of their
    DNSKEY records. CDS that asks to remove the DS set is the key 0 3 0 AA==
  lacks: it gets keys, and answers lacks, a list of texts, which is empty if it can do all
  ttls: it answers dnskey and zone, the highest TTLs that its servers will give
  publish: it gets keys, answers nothing, and ends once that is done
  renew: it gets nothing more, and renews the signatures in the same way
In keys is an object for each key: key, its reference; record, the data of its DNSKEY record; tag
and algorithm; file, its .key file; private, the reference of its private half in the script; and
dnskey, signers, zone and cds, each true or false.
""",
    (
        SCRIPT,
        Argument(
            "--zone-file", metavar="FILE",
            help="the unsigned zone (ZONE.zone beside the script)",
        ),
        Argument(
            "--out", metavar="FILE",
            help="the signed zone (the unsigned zone's name with .signed)",
        ),
        KEYS,
        Argument(
            "--signer", metavar="SIGNER",
            help="what signs: bind or ldns by their tools, pdns, 'pdns-api URL', knot, "
            "bind-inline, or 'hook COMMAND' of the shell (bind)",
        ),
        Argument(
            "--signer-config", metavar="PATH",
            help="where its settings are: the folder of pdns.conf, the file knot.conf or "
            "rndc.conf (its own place), or a file with the key of PowerDNS's API",
        ),
        Argument(
            "--serial", metavar="POLICY", choices=POLICIES, default=POLICIES[0],
            help="the serial: unixtime, increment, date, or keep that of the unsigned zone "
            "(unixtime). Except with keep it is always above the last one. unixtime is the "
            "seconds since 1970, if that is above the serials of the last signed zone and of the "
            "unsigned one, else the next after them (RFC 1982). With keep that of the unsigned "
            "zone has to be above the last one",
        ),
        Argument(
            "--nsec3", metavar="PARAMETERS",
            help="NSEC3 with algorithm, flags, iterations and salt, as '1 0 0 -', or no (as the "
            "last signed zone has it, else no). The flag 1 is opt-out",
        ),
        Argument(
            "--lifetime", metavar="NUMBER", type=number, default=30 * 86400,
            help="how long signatures are valid, in seconds; they begin an hour before (2592000)",
        ),
        Argument(
            "--jitter", metavar="NUMBER", type=number,
            help="by up to how many seconds they expire earlier, each by another time, with "
            "BIND's tools (0)",
        ),
        Argument(
            "--dnskey-ttl", metavar="NUMBER", type=number,
            help="the TTL of the DNSKEY set (the highest of the key files, as dnssec-keygen -L "
            "writes it, or else that of the SOA record)",
        ),
        Argument(
            "--digest", action="append", metavar="2|4", type=int, choices=(2, 4),
            help="SHA-256 or SHA-384 for DS and CDS; both may be given (2)",
        ),
        Argument(
            "--reload", metavar="COMMAND",
            help="a command of the shell that loads the signed zone",
        ),
        Argument(
            "--reload-within", metavar="SECONDS", type=span, default=60,
            help="how long that may take (60)",
        ),
        flag(
            "--no-cds",
            "leave CDS and CDNSKEY out: once all servers of the parent have the DS set, "
            "before that is reported. In this step they stay out",
        ),
        flag("--cds", "put them in again"),
        PARENT_SERVER,
        PARENT,
        PORT,
        flag(
            "--although",
            "publish although a server of the parent doesn't answer, or the last version has "
            "keys that this script has not published",
        ),
        DRY_RUN,
    ),
)

CEREMONY = Word(
    "ceremony",
    "has a key sign that is offline, for months ahead",
    """\
It writes which DNSKEY sets keys have to sign whose private halves aren't here: the one that is due,
and those of the rolls that are planned. Of each set signatures follow one another: the next begins
at half of the time of one. The bytes that a signature is of are in 'signs', in base 64. Put it into
the 'signature' beside it, in base 64 too, as DNSSEC has it: of ECDSA two numbers of the curve's
length, not DER. Give the file to --take: each one is verified, and kept in ZONE.signatures beside
the script. Then an act puts in the one that is valid for the longest. Of a roll that no --roll
names no signature is there: 'plan' with --signer bind refuses it, and an act refuses to publish its
set. TTLs and delays are as in 'plan'.
""",
    (
        SCRIPT,
        Argument(
            "--span", metavar="SECONDS", type=span, default=90 * 86400,
            help="for how long (7776000)",
        ),
        Argument(
            "--lifetime", metavar="NUMBER", type=number, default=30 * 86400,
            help="how long each signature is valid, in seconds (2592000)",
        ),
        several("--roll", "ROLL", "a roll in that time, as 'ksk-roll K1 K2', one after the other"),
        several("--first", "LINE", "a line before them, as 'add KEYFILE'"),
        TTLS,
        DELAYS,
        Argument(
            "--dnskey-ttl", metavar="NUMBER", type=number,
            help="the TTL of the DNSKEY set (the highest of its key files)",
        ),
        KEYS,
        OUT,
        Argument("--take", metavar="FILE", help="take the signatures of this file"),
    ),
)

WORDS = (ACT, CEREMONY)
