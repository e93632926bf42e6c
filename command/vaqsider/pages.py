"""A page of HTML about many zones: who waits for whom, what the last tick said, and each zone's
picture. It has no script, and asks for nothing elsewhere."""

from __future__ import annotations

from collections.abc import Iterable, Iterator
from html import escape
from pathlib import Path

from keyset import Notes

from . import draw, status, timeline, words
from .errors import failure_of
from .zones import ZoneRow

HEAD = ("Zone", "Chain", "Waits for", "Next", "Signed until", "Last tick")
POLICY = "default-src 'none'; style-src 'unsafe-inline'"
# What is wider than the window moves by itself. Pictures are black on white, also on a dark page.
STYLE = (":root{color-scheme:light dark}body{font:16px sans-serif;margin:1.5em}"
         "div{overflow-x:auto}table{border-collapse:collapse}"
         "td,th{text-align:left;vertical-align:top;padding:.2em 1em;border-bottom:1px solid #888}"
         ".wrong{background:#fdd}"
         "@media(prefers-color-scheme:dark){.wrong{background:#622}}")


def page(rows: Iterable[ZoneRow], now: float) -> Iterator[str]:
    """The lines of the page, for the zones as `zones` finds them."""
    rows = list(rows)
    yield '<!DOCTYPE html><html lang="en"><head><meta charset="utf-8"><title>Zones</title>'
    yield '<meta name="viewport" content="width=device-width">'
    yield f'<meta http-equiv="Content-Security-Policy" content="{POLICY}">'
    yield f"<style>{STYLE}</style></head><body><h1>Zones</h1>"
    yield f"<p>{len(rows)} zones, at {words.moment(int(now))}.</p><div><table>"
    yield f"<tr>{''.join(f'<th>{it}</th>' for it in HEAD)}</tr>"
    yield from (_row(number, zone) for number, zone in enumerate(rows))
    yield "</table></div>"
    for number, zone in enumerate(rows):
        yield f'<h2 id="z{number}">{escape(_text(zone.zone))}</h2>'
        yield "<div>"
        yield from _picture(zone, now)
        yield "</div>"
    yield "</body></html>"


def _text(text: object) -> str:
    """A text for people. A byte that isn't UTF-8 has no form there."""
    return str(text).encode("utf-8", "surrogateescape").decode("utf-8", "replace")


def _row(number: int, zone: ZoneRow) -> str:
    chain = "safe" if zone.chain_safe else zone.fault or "broken"
    moments = (it and words.moment(it) for it in (zone.next, zone.signed))
    cells = [chain, zone.waits_for, *moments, zone.tick]
    shown = "".join(f"<td>{escape(_text('' if it is None else it))}</td>" for it in cells)
    is_wrong = not zone.chain_safe or (zone.tick_status or 0) > 1
    name = f'<td><a href="#z{number}">{escape(_text(zone.zone))}</a></td>'
    return f"<tr{' class=wrong' if is_wrong else ''}>{name}{shown}</tr>"


def _picture(zone: ZoneRow, now: float) -> Iterator[str]:
    path = Path(zone.script)
    try:
        lines, zone_status = status.read(path, now)
        course = timeline.timeline(lines, Notes(path).lines)
        yield from draw.picture(zone_status.zone, course, now)
    except Exception as error:
        yield f"<p>{escape(_text(failure_of(error)))}</p>"
