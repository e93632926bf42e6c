"""The words of the command line."""

from __future__ import annotations

import errno
import os
import re
import sys
from argparse import Namespace
from pathlib import Path
from typing import TYPE_CHECKING, Callable, Iterable, Sequence, Tuple

from . import arguments
from .arguments import clock
from .errors import BROKEN, FAULTY, OK, UNPRINTED, Failure, failure_of
from .parsing import parsed

if TYPE_CHECKING:
    from .keyfiles import KeyFile
    from .state import State
    from .zone_status import ZoneStatus

# An exit status, lines for people, and the value that --json prints.
Outcome = Tuple[int, Iterable[str], object]

STDERR = 2


def progress(text: str) -> None:
    """Shows how far long work is, only on a terminal."""
    if sys.stderr.isatty():
        print(f"\r{text}\033[K", end="", file=sys.stderr, flush=True)


# Each word gives its exit status, lines for people, and the value that --json prints. It imports
# what it needs: the command starts at each tick of a timer.


def on_init(args: Namespace) -> Outcome:
    import shlex

    from keyset import Notes

    from . import calling, keyfiles, policies

    files = [keyfiles.read(path) for path in args.KEYFILE]
    zone = re.sub(r"(?<=[^.])\.$", "", args.ZONE)
    path = Path(args.script or f"{arguments.file_name(args.ZONE)}.script")
    Notes(path)
    moment = int(clock()) if args.signed else None
    added = [(file, file.line(args.csk and file.is_sep)) for file in files]
    lines = calling.first_lines(zone, added, moment)
    zone_state = _agreed(path, lines, files, args) if args.signed else None
    calling.begin(path, lines, args.before)
    if zone_state:
        zone_state.keep(path, lines, Notes(path))
    keys = ",".join(file.path.name for file in files) or "KEYS"
    script = shlex.quote(str(path))
    call = "" if args.signed else f"call {script} 'start algorithm-roll - {keys} now'"
    word = f"tick {script}" if policies.place_of(path).exists() else call
    text = [f"{path}: {len(lines)} lines", *([f"next: vaqsider {word}"] if word else [])]
    return OK, text, {"script": str(path), "lines": lines}


def _agreed(
    path: Path, lines: list[str], files: Sequence[KeyFile], args: Namespace
) -> State | None:
    """The state of a zone that is signed already, if its servers agree with these lines, or the
    operator goes on although they don't."""
    if path.exists():
        return None
    from . import state

    folders = {file.path.parent for file in files}
    try:
        return state.agreed(lines, folders, args, clock())
    except Failure as failure:
        if not args.although:
            raise
        _said(failure)
        return None


def on_import(args: Namespace) -> Outcome:
    from . import importing

    result = importing.come(args, clock)
    return result.status, result.text(), result.as_json()


def on_call(args: Namespace) -> Outcome:
    from . import calling

    result = calling.call(args.SCRIPT, args.LINE, clock, args.although, args.dry_run)
    return result.status, result.text(), result.as_json()


def on_status(args: Namespace) -> Outcome:
    from . import resting, shortnames, status

    zones, screens, ends_with = [], [], [OK]
    for path in args.SCRIPT:
        try:
            lines, zone = status.read(path, clock())
            zones.append(zone)
            last = resting.of_ticks(path)
            screens.append("\n".join(status.screen(zone, shortnames.names(lines), last)))
        except Exception as error:
            ends_with.append(_said(error).status)
    ends_with += map(_verdict, zones)
    text = ["\n\n".join(screens)] if zones else []
    return max(ends_with), text, [zone.as_json() for zone in zones]


def on_check(args: Namespace) -> Outcome:
    from . import check

    found = [(path, one) for path in args.SCRIPT for one in check.findings(path, clock())]
    text = [f"{path}: {one}" for path, one in found]
    level = max((one.level for _, one in found), default=OK)
    if level == OK and all(check.is_asked(path, clock()) for path in args.SCRIPT):
        text.append("all is well")
    return level, text, [{"script": path, **vars(one)} for path, one in found]


def on_plan(args: Namespace) -> Outcome:
    from keyset import Notes

    from . import draw, plan, signers, status, timeline

    lines, zone_status = status.read(args.SCRIPT, clock())
    begin = int(clock() if args.start is None else args.start)
    ttls, delays = plan.assumed(args.SCRIPT, args.ttls, args.delays, begin)
    roll_plan = plan.Plan(lines, begin, ttls, delays, signers.planned(args, zone_status.zone))
    for line in args.first or ():
        roll_plan.call(line)
    roll_plan.roll(args.ROLL, args.OLD, args.NEW)
    planned = [step.line for step in roll_plan.steps]
    text = planned if args.script else plan.as_text(roll_plan.steps)
    if args.calendar:
        text = plan.as_calendar(zone_status.zone, roll_plan.steps)
    elif args.picture:
        course = timeline.timeline([*lines, *planned], Notes(args.SCRIPT).lines)
        text = draw.picture(zone_status.zone, course, clock())
    return _verdict(zone_status), text, plan.as_json(roll_plan.steps)


def on_draw(args: Namespace) -> Outcome:
    import dataclasses

    from keyset import Notes

    from . import draw, status, timeline

    lines, zone_status = status.read(args.SCRIPT, clock())
    course = timeline.timeline(lines, Notes(args.SCRIPT).lines)
    text = list(draw.picture(zone_status.zone, course, clock(), args.since))
    if args.out:
        arguments.expect_other(args.out, args.SCRIPT)
        Path(args.out).write_text("\n".join([*text, ""]), encoding="utf-8")
    return _verdict(zone_status), [] if args.out else text, dataclasses.asdict(course)


def on_act(args: Namespace) -> Outcome:
    from . import act, acted

    if args.dry_run:
        return OK, *acted.planned(args, *act.dry_run(args, clock()))
    return OK, *acted.done(args, *act.perform(args, clock))


def on_ceremony(args: Namespace) -> Outcome:
    from . import ceremony

    if args.take:
        new = ceremony.take(args, int(clock()))
        text = [f"{ceremony.path_of(args.SCRIPT)}: {len(new)} new signatures"]
        return OK, text, {"signatures": [row.data for row in new]}
    requests = [it.as_json() for it in ceremony.asked(args, int(clock()))]
    file = {"signatures": requests}
    if args.out:
        arguments.expect_other(args.out, args.SCRIPT)
        Path(args.out).write_text(f"{_json(file)}\n", encoding="utf-8")
        return OK, [f"{args.out}: {len(requests)} signatures are asked for"], file
    return OK, [_json(file)], file


def on_watch(args: Namespace) -> Outcome:
    if args.state:
        return _state(args)
    from . import watching

    watcher = watching.Watcher(args, clock, progress)
    watcher.run()
    return watcher.status(), watcher.text(), watcher.as_json()


def _state(args: Namespace) -> Outcome:
    from keyset import Notes

    from . import comparing, state, status

    (lines, zone_status), notes = status.read(args.SCRIPT, clock()), Notes(args.SCRIPT)
    zone_state = state.of(zone_status, comparing.folders_of(args), args, clock())
    zone_state.keep(args.SCRIPT, lines, notes)
    return zone_state.status, zone_state.text(), zone_state.as_json()


def on_zones(args: Namespace) -> Outcome:
    from . import zones

    counts = args.prometheus or args.json
    rows = list(zones.zones(
        args.FOLDER, clock(), lambda done, of: progress(f"{done} of {of}"), counts
    ))
    progress("")
    is_safe = all(zone.chain_safe for zone in rows)
    text: Iterable[str]
    text = zones.prometheus(rows) if args.prometheus else zones.table(rows)
    if args.html:
        from . import pages

        text = pages.page(rows, clock())
    if args.out:
        from . import place

        place.write(Path(args.out), "".join(f"{line}\n" for line in text))
        text = ()
    return OK if is_safe else BROKEN, text, list(map(vars, rows))


def on_policy(args: Namespace) -> Outcome:
    if args.DO == "check":
        from . import subjects

        return subjects.check(args, clock)
    from . import showing

    return showing.show(args, clock)


def on_tick(args: Namespace) -> Outcome:
    from . import policies, subjects, ticks

    log, jobs = ticks.logger(args.log, sys.stderr if args.json else sys.stdout), args.jobs
    zone_ticks = ticks.Ticks(clock, log, policies.Commands(args.on_ds or (), args.on_event or ()))
    if args.store:
        from . import shared

        ends = shared.run(args.store, Path(args.SCRIPT[0]), jobs or ticks.JOBS, zone_ticks)
    else:
        ends = ticks.run(subjects.scripts(args.SCRIPT), jobs or ticks.JOBS, zone_ticks)
    worst = max((end.status for end in ends.values()), default=OK)
    text = ticks.text(ends) if args.log == "text" else ()
    return worst, text, {path: vars(end) for path, end in ends.items()}


def on_store(args: Namespace) -> Outcome:
    from . import shared

    copied = shared.copy(args.FROM, args.TO)
    return OK, [f"{len(copied)} zones copied"], copied


def on_roll(args: Namespace) -> Outcome:
    from . import rollwords

    return rollwords.roll(args, clock)


def on_next(args: Namespace) -> Outcome:
    from . import rollwords

    return rollwords.next_(args, clock)


def _verdict(zone_status: ZoneStatus) -> int:
    return BROKEN if zone_status.broken else OK


def _said(error: BaseException) -> Failure:
    """The failure for an error, which standard error has now."""
    failure = failure_of(error)
    if failure.status == FAULTY:
        import traceback

        traceback.print_exception(type(error), error, error.__traceback__)
    print(f"vaqsider: {failure}", file=sys.stderr)
    return failure


# The words for one zone, or for a folder, that several machines may share.
OF_STORE = ("call", "roll", "next", "zones")
# What each word does.
DOES: dict[str, Callable[[Namespace], Outcome]] = {
    "init": on_init,
    "import": on_import,
    "call": on_call,
    "status": on_status,
    "check": on_check,
    "plan": on_plan,
    "draw": on_draw,
    "act": on_act,
    "ceremony": on_ceremony,
    "watch": on_watch,
    "zones": on_zones,
    "policy": on_policy,
    "tick": on_tick,
    "store": on_store,
    "roll": on_roll,
    "next": on_next,
}


def main(given: Sequence[str] | None = None) -> int:
    """Runs the command, and gives its exit status."""
    _open_standard()
    args = parsed(sys.argv[1:] if given is None else given)
    try:
        ends_with, text, value = _done(args)
        lines = [_json(value)] if args.json else list(text)
    except (Exception, KeyboardInterrupt) as error:
        return _said(error).status
    return ends_with if _printed(lines) else UNPRINTED


def _done(args: Namespace) -> Outcome:
    """Does what a word asks for. Lines of a zone that several machines share are committed to the
    store before they are in its files."""
    does = DOES[args.word]
    if args.word not in OF_STORE or not args.store:
        return does(args)
    from . import shared

    place = args.FOLDER if args.word == "zones" else args.SCRIPT
    with shared.held(args.store, Path(place)):
        return does(args)


def _open_standard() -> None:
    """Opens what is closed of standard input, output and error: else the next file would be in its
    place, and a program that is run would write into that."""
    while (file := os.open(os.devnull, os.O_RDWR)) <= STDERR:
        os.set_inheritable(file, True)
    os.close(file)
    sys.stderr = sys.stderr or open(os.devnull, "w", encoding="ascii")
    if hasattr(sys.stdout, "reconfigure"):
        sys.stdout.reconfigure(errors="backslashreplace")


def _printed(lines: Sequence[str]) -> bool:
    """Prints lines. If standard output can't take them, standard error has them."""
    try:
        if lines and sys.stdout is None:
            raise OSError(errno.EBADF, os.strerror(errno.EBADF))
        print(*lines, sep="\n", end="\n" if lines else "", flush=True)
    except OSError as error:
        if sys.stdout is not None:
            os.dup2(os.open(os.devnull, os.O_WRONLY), sys.stdout.fileno())
        if not isinstance(error, BrokenPipeError):
            print(f"vaqsider: standard output: {error.strerror}. This was done:", file=sys.stderr)
            print(*lines, sep="\n", file=sys.stderr)
            return False
    return True


def _json(value: object) -> str:
    import json

    return json.dumps(value, indent=1)
