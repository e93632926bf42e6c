"""The timeline of a zone as SVG: in black and white, and as letters for a terminal's browser, which
draws no shapes."""

from __future__ import annotations

from html import escape
from typing import Iterable, Iterator, Mapping, Sequence

from . import words
from .timeline import PHASES, Bar, Timeline

WIDTH, ROW, BAR, LETTER = 740, 22, 12, 7
HATCH = (
    '<pattern id="cached" width="5" height="5" patternUnits="userSpaceOnUse" '
    'patternTransform="rotate(45)"><rect width="5" height="5" fill="white"/>'
    '<line x1="0" y1="0" x2="0" y2="5" stroke="black" stroke-width="2"/></pattern>'
)
FILLS = {"in": "black", "cached": "url(#cached)", "phase": "white"}
SIGNS = {"in": "=", "cached": ".", "phase": "-"}
SAYS = {"in": "in the set", "cached": "taken out, caches may hold it"}
# The phases by the numbers that stand for them if a box is too small.
NUMBERS = {word: str(number) for number, word in enumerate(filter(None, PHASES.values()), start=1)}
SMALL, TINY = 'font-size="10"', 'font-size="9" text-anchor="middle"'


class Scale:
    """Moments as places on the page. The page begins at a given moment; else it shows the last
    rolls, what came before them, and what came after them until now, in at least half of its width
    the rolls. If a script's moments count from 0, it has no now."""

    def __init__(self, course: Timeline, now: float, since: float | None = None) -> None:
        self.left = 16 + LETTER * max(map(len, [*course.phases, *course.rows]), default=0)
        end = max(course.end, now) if course.begin > 0 else course.end
        if since is None:
            # A roll that isn't over goes on until now.
            goes_on = any(bar.end is None for of in course.phases.values() for bar in of)
            rolled = end if goes_on else course.end
            last = max(1, rolled - course.last)
            since, end = max(course.begin, course.last - last // 2), min(end, rolled + last // 2)
        self.begin, self.end = since, max(end, since) + max(1, (end - since) // 20)

    def part(self, moment: float | None) -> float:
        """Which part of the width lies before a moment."""
        moment = self.end if moment is None else min(max(moment, self.begin), self.end)
        return (moment - self.begin) / (self.end - self.begin)

    def __call__(self, moment: float | None) -> float:
        return round(self.left + WIDTH * self.part(moment), 1)

    def shows(self, bar: Bar) -> bool:
        """Whether a part of a bar is on the page."""
        last = bar.end if bar.end is None or bar.word else bar.gone
        is_open = last is None or bar.end is None or max(last, bar.end) >= self.begin
        return bar.begin <= self.end and is_open


def picture(
    zone: str, course: Timeline, now: float, since: float | None = None
) -> Iterator[str]:
    """The lines of an SVG file: a row for each roll, then a row for each key in each set, of those
    that the page shows."""
    at = Scale(course, now, since)
    every = {**course.phases, **course.rows}
    rows = {label: [*filter(at.shows, of)] for label, of in every.items()}
    rows = {label: of for label, of in rows.items() if of}
    of_now = {"now": [Bar(now, now, word="now")]} if at.begin <= now <= at.end else {}
    yield from _head(zone, ROW * (len(rows) + 5), {**rows, **of_now}, at)
    y = ROW
    for label, bars in rows.items():
        yield _text(8, y + BAR - 1, label)
        yield from (part for bar in bars for part in _bar(bar, at, y))
        yield from _names([bar for bar in bars if bar.word], at, y)
        y += ROW
    yield from _axis(at, y)
    if of_now:
        yield from _now(now, at, y)
    yield "</svg>"


def _head(
    zone: str, height: int, rows: Mapping[str, Sequence[Bar]], at: Scale
) -> Iterator[str]:
    """How the file begins: its size, the rows in letters, and a white page."""
    yield (
        f'<svg xmlns="http://www.w3.org/2000/svg" width="{at.left + WIDTH + 20}" '
        f'height="{height}" font-family="sans-serif" font-size="12">'
    )
    yield f'<title>{escape(zone)}</title><desc><pre xmlns="http://www.w3.org/1999/xhtml">'
    yield from (escape(line) for line in _letters(rows, at))
    yield f"</pre></desc><defs>{HATCH}</defs>"
    yield '<rect width="100%" height="100%" fill="white"/>'


def _now(now: float, at: Scale, y: int) -> Iterator[str]:
    """A line through all rows, down to the axis."""
    how = f'x1="{at(now)}" y1="14" x2="{at(now)}" y2="{y}" stroke-dasharray="3 3"'
    yield f'<line class="now" data-at="{now}" {how} stroke="black"/>'
    yield _text(at(now), 10, "now", f'text-anchor="middle" {SMALL}')


def _spans(bar: Bar) -> Iterator[tuple[str, float, float | None]]:
    """The boxes of a bar: of a phase; or while a key is in a set, then while caches may hold it."""
    yield "phase" if bar.word else "in", bar.begin, bar.end
    if not bar.word and bar.end is not None and (bar.gone is None or bar.gone > bar.end):
        yield "cached", bar.end, bar.gone


def _letters(rows: Mapping[str, Sequence[Bar]], at: Scale) -> Iterator[str]:
    """The rows in letters."""
    width = max(map(len, rows), default=0) + 1
    columns = max(30, 78 - width)
    for label, bars in rows.items():
        row = [" "] * (columns + 1)
        for bar, (kind, *span) in ((bar, span) for bar in bars for span in _spans(bar)):
            first, last = (round(columns * at.part(moment)) for moment in span)
            row[first : last + 1] = SIGNS[kind] * (last - first + 1)
            row[first] = NUMBERS.get(bar.word or "", "|") if kind == "phase" else row[first]
        yield f"{label:{width}}{''.join(row)}".rstrip()
    begin, end = (words.moment(round(moment)) for moment in (at.begin, at.end))
    yield f"{'':{width}}{begin} {end:>{columns - len(begin)}}"
    yield f"=  in the set    .  {SAYS['cached']}    |  now"
    yield "".join(f"{number}  {word}    " for word, number in NUMBERS.items()).rstrip()


def _text(x: float, y: float, text: str, how: str = "") -> str:
    return f'<text x="{x}" y="{y}" {how}>{escape(text)}</text>'


def _bar(bar: Bar, at: Scale, y: int) -> Iterator[str]:
    """The boxes of a bar."""
    for kind, begin, end in _spans(bar):
        x, data = at(begin), f'data-begin="{begin}" data-end="{"" if end is None else end}"'
        until = "on" if end is None else f"to {words.moment(end)}"
        says = f"<title>{bar.word or SAYS[kind]}, from {words.moment(begin)} {until}</title>"
        yield (
            f'<rect class="{kind}" x="{x}" y="{y}" width="{max(round(at(end) - x, 1), 1)}" '
            f'height="{BAR}" fill="{FILLS[kind]}" stroke="black" {data}>{says}</rect>'
        )


def _names(phases: Iterable[Bar], at: Scale, y: int) -> Iterator[str]:
    """The names of the phases in their boxes, or below a small box its number. Numbers that would
    touch stand side by side."""
    free: float = 0
    for bar in phases:
        x, end, word = at(bar.begin), at(bar.end), bar.word or ""
        if end - x > LETTER * len(word):
            yield _text(x + 3, y + BAR - 2, word, SMALL)
        else:
            free = max(free + LETTER, (x + end) / 2)
            yield _text(round(free, 1), y + BAR + 8, NUMBERS[word], TINY)


def _axis(at: Scale, y: int) -> Iterator[str]:
    """The axis, and below it what the boxes and the numbers mean."""
    yield f'<line x1="{at.left}" y1="{y}" x2="{at.left + WIDTH}" y2="{y}" stroke="black"/>'
    places = ((0.5, "middle"), (0, "start"), (1, "end"))
    labels = {round(at.begin + part * (at.end - at.begin)): anchor for part, anchor in places}
    for moment, anchor in sorted(labels.items()):
        yield _text(at(moment), y + 14, words.moment(moment), f'text-anchor="{anchor}" {SMALL}')
    for x, (kind, says) in zip((at.left, at.left + 120), SAYS.items()):
        box = f'width="24" height="{BAR}" fill="{FILLS[kind]}" stroke="black"'
        yield f'<rect x="{x}" y="{y + ROW}" {box}/>'
        yield _text(x + 30, y + ROW + BAR - 1, says, SMALL)
    says = "; ".join(f"{number}: {word}" for word, number in NUMBERS.items())
    yield _text(at.left, y + 2 * ROW + BAR - 1, says, SMALL)
