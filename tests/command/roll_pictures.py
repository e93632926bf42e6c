"""The pictures that the command draws, against the sets of `replay/tables.py`."""

import xml.dom.minidom

from keyset.lines import OF_CLOCK
from keyset.rolls import WATCHED
from tests.command.terminal import TOP, typed

LABELS = {"ds": "DS", "dnskey": "DNSKEY", "signers": "signs DNSKEY", "zone": "signs zone"}
SETS = ("DS ", "DNSKEY ", "signs ")
PHASES = ("propagation 1", "caches 1", "propagation 2", "caches 2", "last actions")


def answers(lines):
    """The answers of the tables: to each call, the sets, and the verdict."""
    from tables import answers as of_tables

    *replies, sets, verdict = of_tables(lines)
    pairs = (part.split("=") for part in sets.split(" "))
    return replies, {name: set(keys.split(",")) - {"-"} for name, keys in pairs}, verdict


def examples():
    """Each example and each case with its lines."""
    for path in sorted(TOP.glob("examples/**/*.script")):
        if path.parent.name != "differences":
            yield path, path.read_text().splitlines()


def bars_of(lines):
    """Each bar of the picture of a script, as label, begin, end and `gone`: by the sets of the
    tables. A set of call N is gone once a report is over that counts from call N + 1 or later. If
    there is none, it is held after its roll's end for the TTL of the last report of its kind."""
    made, shown, reports, ends = course_of(lines)
    for kind, key, begin, end, number, roll in made:
        of = "dnskey" if kind == "signers" else kind
        of_kind = [it for it in reports if of in it[1]]
        over = [at + ttl for step, _, at, ttl, _ in of_kind if step >= number]
        last = next((it for it in ends if it[0] >= number and it[1] == roll), None)
        if last and not over:
            over = [last[2] + [0, *(ttl for *_, ttl, by in of_kind if by < last[0])][-1]]
        yield f"{LABELS[kind]} {key}", begin, end, min(over, default=None)
    for (kind, key), begin in shown.items():
        yield f"{LABELS[kind]} {key}", begin, None, None


def course_of(lines):
    """The keys that were in a set, and those that still are; the reports, and the ends of rolls and
    calls."""
    replies, _, _ = answers(lines)
    moment, shown, made, reports, steps, ends = 0, {}, [], [], {}, []
    accepted = [n for n, reply in enumerate(replies, start=1) if reply.startswith("ok")]
    for number in accepted:
        word, *fields = lines[number].split(" ")
        if word in OF_CLOCK:
            moment = int(fields[-1])
        if word in ("start", "wait1"):
            asked = replies[number - 1].split(" ")
            steps[fields[0]] = number, [WATCHED[it] for it in asked if it in WATCHED]
        if word.startswith("report"):
            reports.append((*steps[fields[0]], moment, int(fields[1]), number))
        sets = answers(lines[: number + 1])[1]
        now = {(kind, key) for kind, keys in sets.items() for key in keys}
        for bar in now - shown.keys():
            shown[bar] = moment
        roll = fields[0] if word in ("start", "wait1", "wait2", "abort") else number
        for kind, key in shown.keys() - now:
            made.append((kind, key, shown.pop((kind, key)), moment, number, roll))
        ends += [(number, fields[0], moment)] if word in ("done", "abort") else []
        ends.append((number, number, moment))
    return made, shown, reports, ends


def pictures():
    """Each bar of a picture begins and ends where the record says, on the page too; and the pages
    show what is drawn. (A script with a refused line may have lost one, and isn't drawn.)"""
    for path, lines in examples():
        if any(it.startswith("refused") and "wait for" not in it for it in answers(lines)[0]):
            continue
        text = typed(["draw", path])[0]
        for folder in ("command", "docs/pictures"):
            shown = TOP / folder / f"{path.stem}.svg"
            if path.parent.name == "examples" and shown.is_file() and text != shown.read_text():
                yield f"{shown.relative_to(TOP)} isn't what is drawn"
        yield from last_rolls(xml.dom.minidom.parseString(text), lines, path.name)
        page = xml.dom.minidom.parseString(typed(["draw", path, "--since", "0"])[0])
        if wrong := boxes_in(page) ^ boxes_of(lines):
            yield f"{path.name}: the picture has {wrong} wrong"
        yield from places(page, path.name)
        yield from letters(page, lines, path.name)


def boxes_of(lines):
    """The boxes that the picture of a script has to have: a bar, and what caches hold after it."""
    boxes = set()
    for label, begin, end, gone in bars_of(lines):
        boxes.add((label, "in", str(begin), "" if end is None else str(end)))
        if end is not None and (gone is None or gone > end):
            boxes.add((label, "cached", str(end), "" if gone is None else str(gone)))
    return boxes


def boxes_in(page):
    """The boxes of a page, except those of phases."""
    rows = {
        it.getAttribute("y"): it.firstChild.data
        for it in page.getElementsByTagName("text")
        if it.getAttribute("x") == "8"
    }
    boxes = set()
    for box in page.getElementsByTagName("rect"):
        if box.hasAttribute("data-begin") and box.getAttribute("class") != "phase":
            row = rows[str(int(box.getAttribute("y")) + 11)]
            data = (box.getAttribute(name) for name in ("class", "data-begin", "data-end"))
            boxes.add((row, *data))
    return boxes


def letters(page, lines, name):
    """For a terminal's browser each row shows in letters when the key is in the set, and when
    caches may hold it."""
    text = page.getElementsByTagName("pre")[0].firstChild.data.strip("\n")
    *rows, axis, _, _ = text.split("\n")
    (begin, end), left = map(int, axis.split()), len(axis) - len(axis.lstrip())
    found = {row[:left].rstrip(): row[left:] for row in rows if row.startswith(SETS)}
    wanted = {label: [" "] * (len(axis) - left) for label in found}

    def at(moment):
        part = ((end if moment is None else moment) - begin) / (end - begin)
        return round(part * (len(axis) - left - 1))

    for label, first, last, gone in bars_of(lines):
        may_hold = last is not None and (gone is None or gone > last)
        spans = [("=", at(first), at(last)), *[(".", at(last), at(gone))] * may_hold]
        for sign, one, other in spans:
            wanted[label][one : other + 1] = sign * (other + 1 - one)
    if found != {label: "".join(row).rstrip() for label, row in wanted.items()}:
        yield f"{name}: in letters the picture is another"


def places(page, name):
    """Each box stands where the axis says."""
    (axis,) = (it for it in page.getElementsByTagName("line") if not it.getAttribute("class")
               and it.parentNode.tagName == "svg")
    left, right = (float(axis.getAttribute(side)) for side in ("x1", "x2"))
    ends = [it for it in page.getElementsByTagName("text") if it.getAttribute("text-anchor")
            in ("start", "end")]
    begin, end = (int(it.firstChild.data) for it in ends)
    for box in page.getElementsByTagName("rect"):
        if box.hasAttribute("data-begin"):
            first, last = (box.getAttribute(side) for side in ("data-begin", "data-end"))
            x, width = (float(box.getAttribute(side)) for side in ("x", "width"))
            at = [left + (right - left) * (int(it or end) - begin) / (end - begin)
                  for it in (first, last)]
            if abs(x - at[0]) > 0.2 or abs(x + width - max(at[1], x + 1)) > 0.2:
                yield f"{name}: the box from {first} to {last} stands at {x}, {width} wide"


def moments(lines):
    """The moments of the accepted calls with the clock's moment."""
    for line, reply in zip(lines[1:], answers(lines)[0]):
        word, *fields = line.split(" ")
        if reply.startswith("ok") and word in ("start", "report1", "wait1", "report2", "wait2"):
            yield int(fields[-1])


def last_rolls(page, lines, name):
    """By itself a picture shows the last roll in at least half of its width, from its start to the
    last moment; and each phase has its name in its box, or its number below it."""
    starts = [int(line.split(" ")[-1]) for line, reply in zip(lines[1:], answers(lines)[0])
              if line.startswith("start") and reply.startswith("ok")]
    texts = page.getElementsByTagName("text")
    axis = [it for it in texts if it.getAttribute("text-anchor") in ("start", "end")]
    begin, end = (int(it.firstChild.data) for it in axis)
    bars = [it for it in bars_of(lines) if it[3] is not None]
    last = max([it[3] for it in bars] + [moment for moment in moments(lines)])
    if starts and len(starts) < 3 and (last - starts[-1]) * 2 < (last - begin):
        yield f"{name}: the last roll begins at {starts[-1]} of {begin} to {end}"
    phases = [it for it in page.getElementsByTagName("rect") if it.getAttribute("class") == "phase"]
    names = [it for it in texts if it.firstChild.data in (*PHASES, *map(str, range(1, 6)))]
    if len(names) != len(phases):
        yield f"{name}: {len(phases)} phases, {len(names)} names"
