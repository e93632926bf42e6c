"""What the Python package works out of a long script without the library: what is so after each
call, against `replay/tables.py`; and which reports the notes don't bear out, against asking for
each of them."""

import random
import re
from pathlib import Path
from unittest import mock

from tests.command.roll_pictures import examples
from tests.command.time_taken import course

SEED, SCRIPTS, PART = 60, 30, 6
# After it only the ZSK role of a CSK signs, with no roll in progress: no setter makes that.
UNLIKE = """zone example.com
add-csk C1 - 13 1 0 yes
start algorithm-roll - C1 10
report1 algorithm-roll 0 20
wait1 algorithm-roll 20
report2 algorithm-roll 0 20
wait2 algorithm-roll 20
done algorithm-roll
set-signer C1 no
start csk-roll - - 30
report1 csk-roll 0 40
wait1 csk-roll 40
report2 csk-roll 0 40
wait2 csk-roll 40
done csk-roll
set-visible C1 50
"""


def accepted(lines):
    """The accepted lines of a script, with the keys of each published set after each."""
    from tables import KeySet

    keys, kept, shown = KeySet(), lines[:1], []
    for line in lines[1:]:
        if keys.call(line).startswith("ok"):
            kept.append(line)
            pairs = (part.split("=") for part in keys.published().split(" "))
            shown.append({kind: [] if of == "-" else of.split(",") for kind, of in pairs})
    return kept, shown


def scripts():
    """The examples, a part of the scripts made by hand, and one that falls out of pieces."""
    from make_scripts import by_hand

    yield from (lines for _, lines in examples())
    yield from list(by_hand().values())[::PART]
    yield UNLIKE.splitlines()


def states():
    """What is published after each call, piece by piece, is what the tables have."""
    from keyset import pieces

    whole = mock.Mock(wraps=pieces.ProgramSession)
    with mock.patch.object(pieces, "ProgramSession", whole):
        for lines in scripts():
            kept, shown = accepted(lines)
            if [state.published for state in pieces.follow(kept)] != shown:
                yield f"in pieces {kept} publishes something else"
    if whole.call_count != 1:
        yield f"{whole.call_count} scripts aren't asked in pieces"


def perturbed(chance):
    """A course with its notes, in which some reports and notes were changed."""
    lines, notes = course(chance.choice((1, 2, 3)))

    def report(match):
        if chance.random() < 0.6:
            return match[0]
        ttl, later = chance.choice((59, 60, 61, 500, 0)), chance.choice((0, 0, -1, 1, -6, 5, -15))
        return f"{match[1]} {ttl} {max(0, int(match[2]) + later)}"

    def published(match):
        if chance.random() < 0.8:
            return match[0]
        call = max(1, int(match[2]) + chance.choice((0, 0, -1)))
        return f"{match[1]} {call} {chance.choice((60, 61, 700, 10))} {match[3]}"

    def everywhere(match):
        return f"{match[1]} {int(match[2]) + chance.choice((0, 0, 0, 1, 5, 70))}"

    lines = [re.sub(r"(report\d \S+) \d+ (\d+)", report, line) for line in lines]
    notes = [re.sub(r"(published \S+) (\d+) \d+ (\d+)", published, line) for line in notes]
    notes = [re.sub(r"(everywhere \S+) (\d+)", everywhere, line) for line in notes]
    return lines, notes[:1] + [line for line in notes[1:] if chance.random() > 0.05]


def write(lines, notes):
    for name, kept in (("some.script", lines), ("some.notes", notes)):
        Path(name).write_text("".join(f"{line}\n" for line in kept))


def reports():
    """By the bounds the same reports aren't borne out, and of a course in which all is true the key
    set isn't asked for any."""
    from keyset import Damaged, Notes, bounds, engine
    from vaqsider.history import History

    chance, count = random.Random(SEED), 0
    for number in range(SCRIPTS):
        lines, notes = perturbed(chance) if number else course(20)
        write(lines, notes)
        history, kept = History(lines), Notes("some.script")
        made = [*history.reported(it for it in history.calls if it.line.is_report)]
        with mock.patch.object(bounds.Bounds, "are_met", lambda *_: False):
            try:
                wanted = [*kept.false(lines, made)]
            except Damaged:
                continue
        with mock.patch.object(engine, "dues", wraps=engine.dues) as asked:
            if [*kept.false(lines, made)] != wanted:
                yield f"by the bounds other reports than {wanted} are false of {lines}, {notes}"
        if not number and asked.call_args.args[2]:
            yield "the key set is asked for reports that are true"
        count += len(wanted)
    if not count:
        yield "no report is false"
