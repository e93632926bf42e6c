"""How long the command works on a long script: no more than in proportion to its lines."""

import time
from pathlib import Path
from unittest import mock

SHORT, FEW, TIMES, NOW = 300, 20, 4, 10**9
# By how much more than in proportion it may take: the machine may be busy. If the time grew with
# the square of the lines, it would be by TIMES.
MUCH = 2


class ReadySession:
    """A session of the library whose answers are known beforehand. So only the command's own time
    counts."""

    replies: list = []
    closing_lines: list = []
    zone_status: dict = {}

    def __init__(self, line, *more):
        self.calls = len(more)

    def call(self, line):
        self.calls += 1
        return self.replies[self.calls - 1]

    def closing(self):
        return self.closing_lines

    def status(self):
        return self.zone_status

    def note(self, line):
        pass

    def due(self, moment):
        return ""

    def close(self):
        pass


def course(rolls):
    """The first keys, then so many ZSK rolls, with their notes."""
    lines = ["zone example.com", "add-ksk K0 - 13 1 0 yes", "add-zsk Z0 - 13 2 0 yes",
             "start algorithm-roll - K0,Z0 10", "report1 algorithm-roll 61 20",
             "wait1 algorithm-roll 81", "report2 algorithm-roll 122 90",
             "wait2 algorithm-roll 212", "done algorithm-roll"]
    notes = ["before 60 60 60", "published dnskey 3 60 10", "published zone 3 60 10",
             "everywhere dnskey 20", "everywhere zone 20", "published ds 5 60 81",
             "everywhere ds 90"]
    for number in range(1, rolls + 1):
        call, now, old, new = len(lines), 1000 * number, f"Z{number - 1}", f"Z{number}"
        lines += [
            f"add-zsk {new} - 13 {3 + number % 2} {now} yes", f"start zsk-roll {old} {new} {now}",
            f"report1 zsk-roll 61 {now + 10}", f"wait1 zsk-roll {now + 80}",
            f"report2 zsk-roll 61 {now + 90}", f"wait2 zsk-roll {now + 160}", "done zsk-roll",
            f"delete {old}",
        ]
        for step, kind, at in ((1, "dnskey", 0), (3, "zone", 80), (5, "dnskey", 160)):
            notes += [f"published {kind} {call + step} 60 {now + at}",
                      f"everywhere {kind} {now + at + 5}"]
    return lines, notes


def seconds(part):
    """The least time of a processor that a part took."""
    took = []
    for _ in range(3):
        began = time.process_time()
        part()
        took.append(time.process_time() - began)
    return min(took)


def parts(path):
    """What the command does with a script."""
    from vaqsider import check, draw, status, timeline
    from keyset import Lines, Notes

    def picture():
        made = timeline.timeline(Lines(path).lines, Notes(path).lines)
        return list(draw.picture("example.com", made, NOW, None))

    return {"check": lambda: check.findings(path, NOW), "draw": picture,
            "status": lambda: list(status.screen(status.read(path, NOW)[1]))}


def write(lines, notes):
    for name, text in (("long.script", lines), ("long.notes", notes)):
        Path(name).write_text("".join(f"{line}\n" for line in text))


def took(rolls):
    """How long each part takes with so many rolls."""
    from keyset import programs

    lines, notes = course(rolls)
    write(lines, notes)
    *ReadySession.replies, _, _ = answered = programs.answers(lines)
    ReadySession.closing_lines, ReadySession.zone_status = answered[-2:], programs.status(lines)
    return {name: seconds(part) for name, part in parts("long.script").items()}


def read(rolls):
    """How many lines the programs read for each part with so many rolls."""
    from keyset import engine, programs

    write(*course(rolls))
    counts = {}
    for name, part in parts("long.script").items():
        ready = {"_has_library": lambda: False}
        with mock.patch.multiple(engine, **ready), \
                mock.patch.object(programs, "run", wraps=programs.run) as run:
            part()
        counts[name] = sum(len(call.args[1]) for call in run.call_args_list)
    return counts


def lengths():
    """A script of four times the length takes no more than eight times as long, and without the
    library the programs read no more than eight times as many lines."""
    from keyset import engine

    ready = {"_has_library": lambda: True, "LibrarySession": ReadySession}
    with mock.patch.multiple(engine, **ready):
        short, long = took(SHORT), took(SHORT * TIMES)
    for name in short:
        if long[name] > MUCH * TIMES * short[name]:
            yield f"{name}: {short[name]:.3f} s, and {long[name]:.3f} s of {TIMES} times the lines"
    short, long = read(FEW), read(FEW * TIMES)
    for name in short:
        if long[name] > MUCH * TIMES * short[name]:
            yield f"{name}: the programs read {short[name]}, and then {long[name]} lines"
