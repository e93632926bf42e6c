"""What docs/RUNBOOKS.md shows of `docs/courses.json`: the steps of a roll, with the sets that the
tables of `replay/` say; and the commands of a roll."""

from textwrap import wrap

from tables import answers
from tests.oracle.book import FIRST_KEYS, courses

ADDS = ("add-ksk K1", "add-ksk K2", "add-zsk Z1", "add-zsk Z2", "add-csk C1")
TTLS = {"dnskey": "the DNSKEY TTL", "ds": "the DS TTL"}


def calls_of(rows):
    """The lines of a course, all at one moment and with TTLs of 0, and for each row the number of
    lines up to its call."""
    lines, lengths = [], []
    for number, row in enumerate(rows, start=1):
        lines.append(f"{row['call']} 0")
        lengths.append(len(lines))
        if number < 3:
            lines.append(f"report{number} {row['call'].split()[1]} 0 0")
    return [*lines, *rows[-1]["then"]], lengths


def sets_of(rolls, name):
    """The sets that are published after the call of each row."""
    adds = (f"{add} - 13 {tag} 0 yes" for tag, add in enumerate(ADDS))
    before = ["zone example.com", *adds]
    if name != FIRST_KEYS:
        before += calls_of(rolls[FIRST_KEYS])[0]
    lines, lengths = calls_of(rolls[name])
    for length in lengths:
        *replies, sets, verdict = answers([*before, *lines[:length]])
        assert verdict == "chain safe" and not any(it.startswith("refused") for it in replies)
        yield {kind: keys.split(",") for kind, keys in (it.split("=") for it in sets.split(" "))}


def published(kinds, sets):
    """What a row has published, as the key set prints it. CDS goes with the DS set."""
    def shown(*names):
        return " ".join(f"{name}={','.join(sets[name])}" for name in names)

    words = {
        "dnskey": f"`{shown('dnskey', 'signers')}`",
        "zone": f"`{shown('zone')}`",
        "ds": f"`{shown('ds')}`",
    }
    return "; ".join(words[kind] for kind in kinds if kind != "cds") or "nothing"


def then_of(row, number):
    """What a row has done once all servers have it. Without more words a report has the highest TTL
    of what was published."""
    if "cds" in row["publish"]:
        yield "CDS out"
    if "then" in row:
        yield ", ".join(f"`{it.split()[0] if it.startswith('done') else it}`" for it in row["then"])
    elif "sum" in row:
        yield f"`report{number}`: the **sum** of {' and '.join(TTLS[kind] for kind in row['sum'])}"
        yield "don't raise the DNSKEY TTL before `wait2`"
    else:
        assert {*row["report"]} == {*row["publish"]} - {"cds"}
        yield f"`report{number}`"


def steps(name):
    """The steps of a roll, or of the first keys, as the lines of a list: a call, what it has
    published, and what follows once all servers have that."""
    rolls = courses()["rolls"]
    for number, (row, sets) in enumerate(zip(rolls[name], sets_of(rolls, name)), start=1):
        call = row["call"] if number == 1 else row["call"].split()[0]
        then = "; ".join(then_of(row, number))
        line = f"{number}. `{call}`: {published(row['publish'], sets)}. Then {then}."
        yield from wrap(line, 100, subsequent_indent="   ", break_on_hyphens=False)


def commands(name):
    """The words of each command of a roll, by the times that somebody comes back: the call, then
    what publishes; if CDS comes in, a watch, and later what takes it out again; then what watches
    and makes the next call; at last the deletions."""
    for row in courses()["rolls"][name]:
        times = [[f"call '{row['call']} now'", *(["act"] if row["publish"] else [])]]
        if "cds" in row["publish"]:
            times[-1].append("watch")
            times.append(["act --no-cds"])
        times[-1].append("watch --call")
        yield from times
        if deletes := [it for it in row.get("then", []) if it.startswith("delete")]:
            yield [f"call '{it}'" for it in deletes]


def command_lines(name):
    """The commands of a roll as they are typed, with S for the script."""
    for time in commands(name):
        lines = (f"vaqsider {' '.join([word, 'S', *rest])}"
                 for word, *rest in (it.split(" ", 1) for it in time))
        yield "; ".join(lines)
