"""The arguments that several words take."""

from __future__ import annotations

from ..arguments import number, port
from .word import Argument, flag, several

# What a script counts TTLs and delays of.
SETS = ("DS", "DNSKEY", "ZONE")

SCRIPT = Argument("SCRIPT", help="the file with the accepted lines of a zone")
SCRIPTS = Argument("SCRIPT", nargs="+", help="files with accepted lines")
ZONE = Argument("ZONE", help="the name of the zone")
NEW_SCRIPT = Argument(
    "--script", metavar="FILE",
    help="the file to make, whose name ends in .script (ZONE.script)",
)
SERVER = several(
    "--server", "ADDRESS",
    "a server of the zone (all that NS records name, the parent's and the zone's)",
)
PARENT_SERVER = several(
    "--parent-server", "ADDRESS",
    "a server of the parent (all that its NS records name)",
)
PARENT = Argument("--parent", metavar="ZONE", help="the parent zone (the zone above)")
PORT = Argument(
    "--port", metavar="NUMBER", type=port, default=53,
    help="the port of all servers (53)",
)
KEYS = several("--keys", "FOLDER", "where the key files are (the folder of the script)")
DRY_RUN = flag("--dry-run", "only print what would be done")
STORE_OF_ZONE = Argument(
    "--store", metavar="URL",
    help="the zone is in this store, which SCRIPT is a copy of",
)
TTLS = Argument("--ttls", metavar=SETS, nargs=3, type=number, help="TTLs")
DELAYS = Argument(
    "--delays", metavar=SETS, nargs=3, type=number,
    help="how long until all servers have a version",
)
OUT = Argument("--out", metavar="FILE", help="where to write it (standard output)")
