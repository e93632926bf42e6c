"""The words by which zones roll themselves, as their policies say."""

from __future__ import annotations

from ..arguments import moment, number, words
from .common import SCRIPT, STORE_OF_ZONE
from .word import Argument, Word, flag

POLICY = Word(
    "policy",
    "checks or shows the policy of zones",
    """\
'check' says what is wrong with it for each zone, and how long each roll takes. The status is 2 if
something is: a lifetime is shorter than its roll, a TTL isn't below a lifetime, signatures would be
renewed too late, or the signer can't do a roll. 'show' prints it in full, then the calls of the
year to come, as they would be made. The policy of ZONE.script is in ZONE.policy beside it, or in
vaqsider.policy for all of a folder. TTLs and delays are those of the notes, or else the usual ones
of 'plan'.
Each line of a policy is a word and what it says, in any order. A time span is as 90d, 12h, 30min or
3600. A command is a list of words, as a shell would quote them, and no shell runs it: what it has
to know comes on standard input, and it may take a minute. Files that a policy names are of its
folder. In brackets stands what holds without the line.
  policy: the algorithm of all keys, by its number or name; and a roll of KSKs and one of ZSKs, or
    csk-roll (13 ksk-roll zsk-roll)
  ksk-lifetime, zsk-lifetime, csk-lifetime: how long after it was published a key is rolled (never)
  ksk-once, zsk-once, csk-once: a moment in seconds since 1970, at which keys from before it are
    rolled (no moment)
  delete-after: how long a key stays in the script after it was withdrawn (0)
  purge: how long the files of a key that has left stay in the folder 'left' (for ever)
  keygen: dnssec-keygen or ldns-keygen, with more words if you like, or another command: it gets the
    zone, the role and the algorithm, and leaves the key files in its folder (dnssec-keygen)
  signer, signer-config, zone-file, out, keys, serial, nsec3, jitter, dnskey-ttl: as the options of
    'act'
  signatures: for how long signatures are valid (30d)
  renew-before: how long before their end they are renewed (a quarter of that time)
  reload: the command that loads the signed zone; {zone} in it is the name (none)
  server, parent-server, parent-zone, port: as the options of 'watch'
  parent: cds, if it reads CDS; hook, if the command of on-ds hands the DS set to the registrar;
    ask, if you do (cds)
  on-ds: a command that gets the DS set that is due, as the JSON object {"zone", "ds", "call"}
    (none)
  on-event: a command that gets what needs a person, as the JSON object {"event", "zone", "text",
    "moment"}, each event once. An event is refused (a call), stuck (servers lack something for too
    long), parent lacks, signatures run low, broken, or else needs a person (none)
  patience: how long servers or the parent may lack what was published, before it needs a person
    (1d)
  clock: how far a clock may be wrong, as that of another machine: each wait is longer by twice that
    (0)
""",
    (
        Argument("DO", metavar="DO", choices=("check", "show"), help="check or show"),
        Argument(
            "SCRIPT", nargs="+",
            help="files with the accepted lines of zones, folders of such, or files of policies",
        ),
        Argument(
            "--until", metavar="SECONDS", type=moment,
            help="how far to show (a year from now)",
        ),
        flag("--calendar", "show the calls as an iCalendar file"),
        flag("--picture", "show them as SVG"),
    ),
)

TICK = Word(
    "tick",
    "does whatever is due by the policy, and nothing else",
    """\
It looks at the servers and notes what they give, makes the call that the policy says, makes a key
if one is wanted, publishes, renews signatures, takes CDS out before a report of the DS set, and
moves the files of keys that have left to the folder 'left'. It may be run at any time, twice at
once, and killed anywhere: the next one goes on. A zone that fails doesn't hold up the others. Each
deed is a line of log. A key whose private half isn't here signs as with 'act'. A signer that runs
is asked what it has, and each week for a new serial.
The status is that of the worst zone:
  0 nothing is needed now
  1 it waits for servers or for the parent
  2 it needs a person, and says for what: also if the clock was set back, or a command fails
  3 the chain of trust is broken, or a file is damaged: nothing was done
What ticks have begun and done is in ZONE.tick beside the script, which is also what they lock: keep
that file. Until when nothing is needed is in ZONE.rest, which may go.
""",
    (
        Argument(
            "SCRIPT", nargs="+",
            help="files with the accepted lines of zones, or folders of such",
        ),
        Argument("--jobs", metavar="NUMBER", type=number, help="how many zones at once (8)"),
        Argument(
            "--log", metavar="text|json", choices=("text", "json"), default="text",
            help="the form of the lines",
        ),
        Argument(
            "--on-ds", metavar="WORDS", type=words,
            help="a command that gets the DS set that is due as JSON on its standard input, and "
            "hands it to the registrar; with arguments as 'registrar --zone' (that of the policy)",
        ),
        Argument(
            "--on-event", metavar="WORDS", type=words,
            help="a command that gets what needs a person, as JSON (that of the policy)",
        ),
        Argument(
            "--store", metavar="URL",
            help="zones that several machines share: postgresql://.., with one folder as SCRIPT",
        ),
    ),
)

STORE = Word(
    "store",
    "copies zones between a folder and PostgreSQL",
    """\
Copied are the lines of the script, of its notes and of its acts and ticks, with the policy, as rows
that are only added; out again they are the same files. Key files and zones are not copied: each
machine has to reach the same ones, where the policy says. It needs Debian's python3-psycopg.
""",
    (
        Argument("copy", metavar="copy", choices=("copy",), help="the only thing that it does"),
        Argument("FROM", help="the folder, or postgresql://.."),
        Argument("TO", help="the other one"),
    ),
)

ROLL = Word(
    "roll",
    "begins a roll now, by the policy",
    """\
It shows each call with its date, and asks. Then the new key is made and the roll begins, and 'tick'
does the rest.
""",
    (
        SCRIPT,
        Argument("ROLE", metavar="ROLE", choices=("ksk", "zsk", "csk"), help="ksk, zsk or csk"),
        Argument(
            "--to", metavar="KEY",
            help="the new key: a key file, or the reference of a key of the script (a key that is "
            "made)",
        ),
        flag("--yes", "don't ask"),
        flag("--dry-run", "only show it"),
        STORE_OF_ZONE,
    ),
)

NEXT = Word(
    "next",
    "does the one thing that comes next",
    """\
It is what 'tick' would do first: a call, a publication, a key or a look. If something is in the way
of what the policy wants, it says what:
  ROLL may not begin beside the rolls in progress: it begins once they are over
  ROLL has to report a TTL of more than 32 bits: it is reported once enough of the TTL has passed
  the wait of ROLL ends after all time: end the roll early, and lower the TTL
  call NUMBER was made by hand: a roll was ended early, or a key's flag or time set, and no law says
    what may follow; go on by hand, and then begin a new script by 'init --signed'
  the last step of ROLL isn't known, or its second wait: the state isn't that of the record
A key that was added as not usable never comes in. While no new key is there the old one goes on
signing. With a clock that was set back no report is made until it has reached the last sight again.
""",
    (
        SCRIPT,
        flag("--dry-run", "only say it"),
        STORE_OF_ZONE,
    ),
)

WORDS = (POLICY, TICK, STORE, ROLL, NEXT)
