"""Zones that roll by themselves, in a world of this process (rolling_world.py): courses by each
kind of policy, rolls that are asked for, and early ends. Beside them what goes wrong
(rolling_mishaps.py), what policies say (rolling_policies.py), what needs a person (attended.py),
and a roll by hand (by_hand.py).

    pytest tests/command/test_rolling.py    all of it
    pytest tests/command -k rolling.NAME    only this check, as courses or killed

What comes next a second reader says too (oracle/what_next.py): the program has to say the same, if
it knows the word."""

from __future__ import annotations

import io
import json
import re
import shutil
import time
from collections.abc import Iterator
from dataclasses import dataclass
from html.parser import HTMLParser
from pathlib import Path
from unittest import mock

from tests.command import attended, by_hand, rolling_mishaps, rolling_policies
from tests.command.rolling_folder import COUNTS, DAY, SPLIT, lines, living, played, shape, tick
from tests.command.rolling_world import BEGIN, UNSIGNED, ZONE, BrokenChain, World
from tests.command.terminal import folder, typed
from tests.oracle import what_next

# The notes and the reports of DS sets: no server gives CDS any more then.
OF_DS = re.compile(r"noted: everywhere ds |"
                   r"called: report(1 ksk-double-ds-roll|2 (ksk|csk|algorithm)-roll) ")


# ---- courses


@dataclass(frozen=True)
class Course:
    """A policy with lifetimes, which rolls it brings, and for how long it is played."""

    name: str
    policy: str
    rolls: tuple[str, ...]
    days: int = 40
    reads_cds: bool = True


COURSES = (
    Course("two kinds of keys", "ksk-lifetime 15d\nzsk-lifetime 6d\n",
           ("algorithm-roll", "zsk-roll", "ksk-roll")),
    Course("the other methods", "policy 13 ksk-double-ds-roll zsk-double-signature-roll\n"
           "ksk-lifetime 15d\nzsk-lifetime 6d\ndelete-after 1d\n",
           ("algorithm-roll", "zsk-double-signature-roll", "ksk-double-ds-roll")),
    Course("CSKs", "policy 13 csk-roll\ncsk-lifetime 8d\n", ("algorithm-roll", "csk-roll")),
    Course("a registrar", "ksk-lifetime 10d\nparent hook\non-ds registrar\n",
           ("algorithm-roll", "ksk-roll"), 25, reads_cds=False),
)


def course_faults(course: Course) -> Iterator[str]:
    """A course from an unsigned zone: nobody touches it, and no cache is ever without a chain."""
    world = World(reads_cds=course.reads_cds)
    with folder(), living(world, course.policy):
        for now, status, said in played(world, BEGIN + course.days * DAY):
            has_cds = any("CDS" in sets for sets in world.zone.given.values())
            if status > 1 or has_cds and OF_DS.search(said):
                yield f"{course.name}: at {now} it ends with {status}: {said}"
                return
        starts = [line.split(" ")[1] for line in lines() if line.startswith("start ")]
        COUNTS["rolls"] += len(starts)
        if set(starts) != set(course.rolls):
            yield f"{course.name}: it has made {starts}"
        yield from (f"{course.name}: {fault}" for fault in left_faults(course, world))


def left_faults(course: Course, world: World) -> Iterator[str]:
    """What a course leaves: no key is older than its lifetime and the time of a roll, files of keys
    that have left are away, and `check` finds nothing that can't be true."""
    zone_status = json.loads(typed(["status", f"{ZONE}.script", "--json"], world.now)[0])[0]
    if not zone_status["chain"]["safe"]:
        yield f"the verdict is {zone_status['chain']}"
    here = {path.name for path in Path().glob("K*.key")}
    if here != {key["reference"] for key in zone_status["keys"]}:
        yield f"the key files are {here}"
    if not list(Path("left").glob("K*.key")):
        yield "no key has left"
    found = json.loads(typed(["check", f"{ZONE}.script", "--json"], world.now)[0])
    yield from (f"check finds {one['text']}" for one in found if one["level"] >= 2)
    ends = [words[1] for words in (line.split() for line in lines()) if words[0] == "done"]
    if len(ends) < len(course.rolls):
        yield f"only {ends} were ended"


def courses() -> Iterator[str]:
    for course in COURSES:
        try:
            yield from course_faults(course)
        except BrokenChain as broken:
            yield f"{course.name}: {broken}"


def renewals() -> Iterator[str]:
    """Signatures of a zone that rolls no key are renewed before they expire in a cache, and a
    version that was lost comes back."""
    world = World()
    with folder(), living(world, ""):
        said = "".join(text for _, _, text in played(world, BEGIN + 50 * DAY, DAY))
        if said.count("published: signatures run low") != 3:
            yield f"in 50 days signatures were renewed so: {said}"
        Path(f"{ZONE}.zone.signed").unlink()
        said = tick(world)[1]
        if "published: the signed zone is missing" not in said:
            yield f"without the signed zone it says {said}"


# ---- at rest


def rest() -> Iterator[str]:
    """A zone that needs nothing is left as it is, and a tick of it runs nothing."""
    world = World()
    with folder(), living(world, "ksk-lifetime 15d\nzsk-lifetime 6d\n"):
        for _ in played(world, BEGIN + 3 * DAY):
            pass
        before = {path: path.read_bytes() for path in Path().rglob("*") if path.is_file()}
        with mock.patch.object(what_next, "said", side_effect=AssertionError):
            status, said = tick(world)
        after = {path: path.read_bytes() for path in Path().rglob("*") if path.is_file()}
        if status or before != after or "nothing is due before" not in said:
            yield f"at rest it ends with {status}: {said}"
        Path(f"{ZONE}.zone").write_text(UNSIGNED + "www IN A 127.0.0.2\n")
        status, said = tick(world)
        if "published: the unsigned zone has changed" not in said:
            yield f"after a change of the zone it says {said}"


def demands() -> Iterator[str]:
    """A roll that is asked for begins at once, is shown as it is then made, and comes only once.
    One thing at a time is done by `next`."""
    world, script = World(), f"{ZONE}.script"
    with folder(), living(world, ""):
        for _ in range(80):
            said, _ = typed(["next", script], world.now)
            world.passes(60)
        if lines()[-1] != "done algorithm-roll":
            yield f"by next it has come to {lines()[-1]}: {said}"
        shown, _ = typed(["roll", script, "zsk", "--dry-run"], world.now)
        yield from not_begun(world)
        typed(["roll", script, "zsk", "--yes"], world.now)
        for _ in played(world, world.now + 5 * DAY):
            pass
        yield from rolled_to(world)
        rolls = [line.split(" ")[:2] for line in lines() if "zsk-roll" in line]
        if rolls != 2 * [line.split()[1:3] for line in shown.splitlines() if "zsk-roll" in line]:
            yield f"it shows {shown}, and makes {rolls}"
        answer = json.loads(typed(["next", script, "--dry-run", "--json"], world.now)[0])
        ends = json.loads(typed(["tick", script, "--json"], world.now)[0])
        if answer["word"] != "nothing" or ends[script]["status"] != 0:
            yield f"as JSON they say {answer} and {ends}"


def rolled_to(world: World) -> Iterator[str]:
    """A roll to a key that a person has made."""
    world.runs(["keygen", f"{ZONE}.", "zsk", "13"], within=Path())
    made = max(Path().glob("K*.key"), key=lambda path: path.stat().st_mtime_ns).name
    said, status = typed(["roll", f"{ZONE}.script", "zsk", "--to", made, "--yes"], world.now)
    for _ in played(world, world.now + 5 * DAY):
        pass
    starts = [line for line in lines() if line.startswith("start zsk-roll ")]
    if status > 1 or starts[-1].split(" ")[3] != made:
        yield f"a roll to {made} ends with {status}: {said}, {starts}"


def not_begun(world: World) -> Iterator[str]:
    """A roll without a yes, or of keys that the policy hasn't, changes nothing."""
    before = shape()
    with mock.patch("sys.stdin", io.StringIO("no\n")):
        said, status = typed(["roll", f"{ZONE}.script", "zsk"], world.now)
    if status or shape() != before or "begin? [y/N]" not in said:
        yield f"roll without a yes ends with {status}: {said}"
    said, status = typed(["roll", f"{ZONE}.script", "csk", "--yes"], world.now)
    if status != 64 or shape() != before or "has no CSKs" not in said:
        yield f"a roll of CSKs ends with {status}: {said}"


def early_ends() -> Iterator[str]:
    """After an early end by hand ticks bring what it asks for to all servers, and then need a
    person. By a new script of the zone as it is they go on."""
    double_ds = "policy 13 ksk-double-ds-roll zsk-roll\nzsk-lifetime 6d\nksk-lifetime 7d\n"
    for policy in (SPLIT, double_ds):
        world = World()
        with folder(), living(world, policy):
            roll = None
            for _ in played(world, BEGIN + 9 * DAY):
                last = lines()[-1].split(" ")
                if last[0] == "start" and last[1] != "algorithm-roll":
                    roll = last[1]
                    break
            typed(["call", f"{ZONE}.script", f"abort {roll}"], world.now)
            calls = len(lines()) - 1
            said = tick(world)[1]
            *_, (_, status, last) = played(world, world.now + 3600)
            wanted = (2, calls, True, True)
            if (status, len(lines()) - 1, "published" in said,
                    f"call {calls} was made by hand" in last) != wanted:
                yield f"after an early end of {roll}: {said}, then {status}: {last}"
            yield from goes_on_anew(world, roll)


def goes_on_anew(world: World, roll: str) -> Iterator[str]:
    """A new script of the zone as it is has no call by hand, and by it the roll comes to its
    end."""
    new = next(it.split(" ")[3] for it in reversed(lines()) if it.startswith(f"start {roll} "))
    (tag,) = (it.split(" ")[4] for it in lines() if re.match(rf"add-\w+ {re.escape(new)} ", it))
    keys = [path.stem for path in sorted(Path().glob("K*.private"))
            if not path.stem.endswith(f"+{int(tag):05}")]
    for old in Path().glob(f"{ZONE}.*"):
        if old.suffix in (".script", ".notes", ".tick", ".rest"):
            old.rename(f"ended{old.suffix}")
    # (There are no servers that it could ask.)
    said, status = typed(["init", ZONE, *keys, "--signed", "--although", "--before", 60, 60, 60],
                         world.now)
    if status:
        yield f"init --signed after an early end of {roll} ends with {status}: {said}"
        return
    for _ in played(world, world.now + 9 * DAY):
        pass
    if f"done {roll}" not in lines():
        yield f"by a new script after an early end of {roll}: {lines()[-1]}"


def many() -> Iterator[str]:
    """Of many zones one that is damaged and one without a policy don't hold up the others; and
    zones at rest take no time of a processor."""
    with folder() as here, living(World(), SPLIT) as world:
        for stored in set(here.glob("*.script")) - {here / f"{ZONE}.script"}:
            stored.unlink()
        for _ in played(world, BEGIN + 2 * DAY):
            pass
        for number in range(200):
            for path in here.glob(f"{ZONE}.*"):
                if path.is_file():
                    shutil.copy(path, f"zone{number}{path.name.removeprefix(ZONE)}")
        Path("zone7.script").write_text("zone")
        Path("zone8.policy").unlink()
        begun = time.process_time()
        said, status = typed(["tick", here, "--log", "json"], world.now)
        took = time.process_time() - begun
        ended = [json.loads(line)["zone"] for line in said.splitlines()]
        if status != 3 or not {"zone7", "zone8"} <= set(ended):
            yield f"of many zones these speak: {ended}, with {status}"
        begun = time.process_time()
        typed(["tick", here], world.now + 60)
        again = time.process_time() - begun
        if again > 2:
            yield f"200 zones at rest take {again:.1f} s of a processor, at first {took:.1f}"


class Page(HTMLParser):
    """What a page has: its tags, the places that it names, and its text."""

    def __init__(self, text: str) -> None:
        super().__init__()
        self.tags: set[str] = set()
        self.named: set[str] = set()
        self.text = ""
        self.feed(text)

    def handle_starttag(self, tag: str, attrs: list) -> None:
        self.tags.add(tag)
        self.named |= {value for name, value in attrs if name in ("href", "src")}

    def handle_data(self, data: str) -> None:
        self.text += data


def shown() -> Iterator[str]:
    """A page and metrics say how the last tick ended. No text from a file becomes a tag."""
    with folder() as here, living(World(), SPLIT) as world:
        tick(world)
        for path in set(here.glob("*.script")) - {here / f"{ZONE}.script"}:
            path.unlink()
        Path("<script>&.script").write_text("zone <script>\n")
        said, status = typed(["zones", here, "--html"], world.now)
        metrics, _ = typed(["zones", here, "--prometheus"], world.now)
    page = Page(said)
    if status or "script" in page.tags or not {"svg", "table"} <= page.tags:
        yield f"the page has {page.tags}, with {status}: {said}"
    if page.named != {"#z0", "#z1"} or "ns1: no answer" not in page.text:
        yield f"the page names {page.named}, and says {page.text}"
    if 'vaqsider_tick_status{zone="example.com"' not in metrics:
        yield f"the metrics are {metrics}"


CHECKS = {it.__name__: it for it in (
    *rolling_policies.CHECKS, renewals, rest, *rolling_mishaps.CHECKS, demands, early_ends, many,
    shown, *attended.CHECKS, *by_hand.CHECKS, courses, rolling_mishaps.killed,
)}


def numbers() -> str:
    """What the zones have done so far."""
    return ", ".join(f"{count} {what}" for what, count in COUNTS.items())
