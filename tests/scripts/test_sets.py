"""Takes each roll through all its phases. Between any two of its calls it puts each setter on each
key, a deletion, a call made again, an early end and a moment that goes back. After each of them it
also ends the roll early, and starts it again. Each answer, the record, and the whole key set after
each call have to be those of the tables (`replay/tables.py`), which share no text with the key set;
so have the texts of states, what is due of each roll, and when its wait is over. (The program tries
each wait at its end, and a nanosecond before it.) Both audits have to give the same verdict on each
record. The same goes for the stored scripts, whose answers are stored too, with the chain line.

It asks the program `callers`, which `rt ci` has made by then.
"""

import subprocess

import pytest

from keyset.rolls import ALGORITHM_ROLL, CSK_ROLL, ROLLS
from tables import KeySet
from tests.gate.tools import stored_scripts


FIRST_KEYS = """\
zone example.com
add-ksk K1 - 13 1 0 yes
add-zsk Z1 - 13 2 0 yes
add-public I 13 9 0 yes
set-present I yes 0
start algorithm-roll - K1,Z1 10
report1 algorithm-roll 60 20
wait1 algorithm-roll 80
report2 algorithm-roll 60 90
wait2 algorithm-roll 150
done algorithm-roll"""

# The keys that come in, and the lists of the roll to them, by what a policy renews by the roll:
# from the first keys, or from the CSK that another course brings in.
COURSES = {
    "ksk": (["add-ksk K2 - 13 3 160 yes"], "K1 K2"),
    "zsk": (["add-zsk Z2 - 13 3 160 yes"], "Z1 Z2"),
    "csk": (["add-csk C - 13 3 160 yes"], "K1,Z1 C"),
    "": (["add-ksk K2 key 15 3 160 yes", "add-zsk Z2 - 15 4 160 yes"], "K1,Z1 K2,Z2"),
}
FROM_A_CSK = {
    "csk": (["add-ksk K2 - 13 4 250 yes", "add-zsk Z2 - 13 5 250 yes"], "C K2,Z2"),
    "": (["add-csk C2 - 15 4 250 yes"], "C C2"),
}

# Enough keys for their map to grow some times.
MANY = 300

FLAGS = ["set-signer", "set-at-parent", "set-decoupled"]
STAMPS = ["set-visible", "set-ds-visible", "set-rrsig-visible"]

# What the getters call a phase. The tables name it by the call that it waits for.
PHASES = {
    "report1": "Propagation1",
    "wait1": "CacheExpire1({})",
    "report2": "Propagation2",
    "wait2": "CacheExpire2({})",
    "done": "Done",
}
# Which actions are due in a phase, by their name in the tables.
DUE = {"report1": "started", "report2": "halfway", "done": "ended"}
FLAG_NAMES = ["old", "signer", "present", "at_parent"]
# What an operator reads of a state: its flags, and the part that such a key plays in a roll.
STATES = {
    "": "(Future)",
    "at_parent": "At Parent(Future)",
    "present": "Present (Incoming)",
    "present at_parent": "Present, At Parent (Incoming)",
    "signer": "Signer",
    "signer at_parent": "Signer, At Parent",
    "signer present": "Signer, Present (Active)",
    "signer present at_parent": "Signer, Present, At Parent (Active)",
    "old": "Old (Stale)",
    "old at_parent": "Old, At Parent (Stale)",
    "old present": "Old, Present (Retired)",
    "old present at_parent": "Old, Present, At Parent (Retired)",
    "old signer": "Old, Signer",
    "old signer at_parent": "Old, Signer, At Parent",
    "old signer present": "Old, Signer, Present (Leaving)",
    "old signer present at_parent": "Old, Signer, Present, At Parent (Leaving)",
}
SET_NAMES = ["ds", "dnskey", "dnskey_signers", "zone_signers"]
# How these characters are printed in a text with quotes.
ESCAPED = str.maketrans({'"': '\\"', "\\": "\\\\"})
STAMP_NAMES = ["creation", "published", "visible", "ds_visible", "rrsig_visible", "withdrawn"]


def roll_lines(roll, lists, start):
    """The calls of a roll that begins at this moment, to its end and after it."""
    return [
        f"start {roll} {lists.split()[0]} {lists.split()[1]} {start}",
        f"report1 {roll} 60 {start + 10}",
        f"wait1 {roll} {start + 70}",
        f"report2 {roll} 60 {start + 80}",
        f"wait2 {roll} {start + 140}",
        f"done {roll}",
    ]


def courses():
    """The name of each course, its lines before the roll, those of the roll, and the roll."""
    first = FIRST_KEYS.split("\n")
    for roll, row in ROLLS.items():
        adds, lists = COURSES[row.renews]
        yield roll, first + adds, roll_lines(roll, lists, 200), roll
    adds, lists = COURSES["csk"]
    second = [*first, *adds, *roll_lines(CSK_ROLL, lists, 200)]
    for roll in (CSK_ROLL, ALGORITHM_ROLL):
        adds, lists = FROM_A_CSK[ROLLS[roll].renews]
        yield f"{roll} from a CSK", second + adds, roll_lines(roll, lists, 400), roll


def many_keys():
    """The lines of keys that each have a reference and a tag. Another key is refused these until
    the first is deleted."""
    last = MANY - 1
    yield "zone example.com"
    for tag in range(MANY):
        yield f"add-ksk {tag} - 13 {tag} 0 yes"
        yield f"add-ksk {tag} - 13 {MANY} 0 yes"
    yield from (f"add-ksk again - 13 {tag} 1 yes" for tag in range(MANY))
    yield from (f"set-stale {last}", f"delete {last}", f"add-ksk again - 13 {last} 2 yes")
    yield f"add-ksk {last} - 13 {last} 3 yes"


def moment_of(lines):
    """The last moment that the lines use."""
    return max(int(words[-1]) for words in map(str.split, lines) if words[-1].isdigit())


def interludes(before, roll, call, following):
    """The lines that may come between two calls of a roll."""
    now = moment_of(before)
    names = [line.split()[1] for line in before if line.startswith("add-")]
    for name in names:
        yield from ([f"{word} {name} {value}"] for word in FLAGS for value in ("yes", "no"))
        yield from ([f"set-present {name} {value} {now}"] for value in ("yes", "no"))
        yield from ([f"{word} {name} {now}"] for word in STAMPS)
        stale, deleted = f"set-stale {name}", f"delete {name}"
        yield from [[stale], [deleted], [stale, deleted]]
    yield [f"abort {roll}"]
    yield [call]
    word, *fields = following.split()
    if fields[-1].isdigit():
        yield [" ".join([word, *fields[:-1], "0"])]


def scripts_of(name, before, calls, roll):
    """The scripts of a course, one with each interlude at each place."""
    for i in range(len(calls) + 1):
        there = before + calls[:i]
        last = calls[i - 1] if i else before[-1]
        following = calls[i] if i < len(calls) else calls[0]
        for interlude in interludes(there, roll, last, following):
            yield [*there, *interlude, *calls[i:]]
            if i == 1:
                yield [*there, *interlude, f"abort {roll}", *calls]


def some(value):
    """A value that may be absent, as the program prints it."""
    return "None" if value is None else f"Some({value})"


def listed(values):
    return f"[{', '.join(values)}]"


def roll_name(roll):
    return "".join(map(str.capitalize, roll.split("-")))


def flags(state):
    return listed("true" if flag in state else "false" for flag in FLAG_NAMES)


def text_of(state):
    return STATES[" ".join(flag for flag in FLAG_NAMES if flag in state)]


def wait_end(keyset, roll):
    """The second from which on the wait of a roll is over, if it has one. A number that no moment
    has stands for them all."""
    phase, ttl = keyset.phases.get(roll, (None, 0))
    stamps = keyset.checked(phase, roll) if phase in ("wait1", "wait2") else [None]
    if None in stamps:
        return None
    return min(max((stamp + ttl for stamp in stamps), default=0), 1 << 64) if ttl else 0


def roll_line(keyset, roll):
    phase, ttl = keyset.phases.get(roll, (None, 0))
    named = PHASES[phase].format(ttl) if phase else None
    due = getattr(ROLLS[roll], DUE[phase]).split() if phase in DUE else []
    return f"{roll_name(roll)} {some(named)} {listed(due)} {some(wait_end(keyset, roll))} true"


def key_set_lines(keyset):
    """The whole key set, line by line, as the program prints it, in alphabetical order."""
    lines = [f"{len(keyset.keys)} keys, {len(keyset.phases)} rolls"]
    for name, key in keyset.keys.items():
        private = None if key.private is None else f'"{key.private.translate(ESCAPED)}"'
        first, *second = map(flags, key.states)
        decoupled = "true" if key.decoupled else "false"
        stamps = listed(some(key.stamps.get(stamp)) for stamp in STAMP_NAMES)
        lines.append(
            f"{name} {some(private)} {key.kind} {first} {some(*second or [None])}"
            f" {key.algorithm} {key.tag} {decoupled} {stamps}"
        )
        lines += [f"{name}: {text_of(state)}" for state in key.states]
    lines += [roll_line(keyset, roll) for roll in ROLLS]
    return sorted(lines)


def mark_of(position):
    if position.step:
        return f"Step({roll_name(position.step)})"
    if not position.report:
        return "Other"
    roll, second, ttl = position.report
    second = "true" if second else "false"
    return f"Report {{ roll: {roll_name(roll)}, second: {second}, ttl: {ttl} }}"


def keys_of(published):
    return listed(
        f'PublishedKey {{ added: {added}, reference: "{name.translate(ESCAPED)}" }}'
        for name, added in sorted(published)
    )


def entry(position):
    """What a position of a record has, as the program prints it."""
    moment = some(position.moment)
    sets = [position.ds, position.dnskey, position.signers, position.zone]
    named = ", ".join(f"{name}: {keys_of(keys)}" for name, keys in zip(SET_NAMES, sets))
    return f"{moment} {mark_of(position)} Published {{ {named} }}"


def check(name, script, stored, parts):
    """Compares what the program prints for a script, part by part, with the tables, and its answers
    with the stored ones."""
    answers, entries = next(parts), next(parts).split("\n")
    keyset, wanted = KeySet(), []
    for i, line in enumerate(script):
        if i > 0:
            wanted.append(keyset.call(line))
        if sorted(next(parts).split("\n")) != key_set_lines(keyset):
            pytest.fail(f"{name}: the key set differs from that of the tables: {script[: i + 1]}")
    if answers.split("\n")[:-1] != [*wanted, keyset.published()] or stored not in (None, answers):
        pytest.fail(f"{name}: the answers differ from those of the tables: {script}")
    record = keyset.record[1:]
    if entries != [f"{len(record)} entries, one verdict: true", *map(entry, record)]:
        pytest.fail(f"{name}: the record differs from that of the tables: {script}")


STORED_SCRIPTS = [(name, script.splitlines(), answers.rstrip("\n"))
                  for name, script, answers in stored_scripts()]


@pytest.fixture(scope="module")
def check_all(callers, counts, say):
    """Checks scripts, of which some have stored answers, and counts them."""

    def check_all(name, scripts):
        given = "\n\n".join("\n".join(script) for script, _ in scripts)
        ran = subprocess.run([callers], input=given, capture_output=True, text=True, check=True)
        parts = iter(ran.stdout.split("\n\n"))
        for script, stored in scripts:
            check(name, script, stored, parts)
        counts["scripts"] += len(scripts)
        counts["calls"] += sum(len(script) - 1 for script, _ in scripts)

    yield check_all
    made = counts["scripts"] - counts["stored"] - counts["of many keys"]
    say(f"sets: {counts['courses']} courses in {made} scripts, one of {MANY} keys,"
        f" {counts['stored']} stored scripts, {counts['calls']} calls: answers,"
        f" {counts['scripts']} records and whole key sets are those of the tables")


@pytest.mark.parametrize("course", courses(), ids=lambda course: course[0])
def test_course(course, check_all, counts):
    counts["courses"] += 1
    check_all(course[0], [(lines, None) for lines in scripts_of(*course)])


def test_many_keys(check_all, counts):
    counts["of many keys"] += 1
    check_all("many keys", [([*many_keys()], None)])


@pytest.mark.parametrize("stored", STORED_SCRIPTS, ids=lambda stored: stored[0])
def test_stored_script(stored, check_all, counts):
    counts["stored"] += 1
    name, script, answers = stored
    check_all(name, [(script, answers)])
