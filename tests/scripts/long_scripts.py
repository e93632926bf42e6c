"""Scripts and answers that are longer than every buffer on their way, to see whether anything fails
on them: no contract says that memory is found.

The answers are those of the tables (`replay/tables.py`), or follow from the number of lines. The
second judge says whether the chain of trust held, for the same course with few keys or few rounds:
it is too slow for this many.
"""

from tables import KeySet, answers

MEGABYTE = 1 << 20
# The number of key tags, and of the adds that find none left.
TAGS, LATE = 1 << 16, 464
# How many references one list of a start has.
LISTED = 5_000
# The rounds of rolls, and the bytes of a reference, that make a script long enough.
ROUNDS, REFERENCE = 2_500, 70_000
FEW = 3

NOTHING = "ds=- dnskey=- signers=- zone=-"


class KeySetWithoutRecord(KeySet):
    """The tables without a record, and without the question whether an add is refused: each add
    here has a tag and a reference of its own."""

    def position(self, *_):
        return None

    def refusal(self, line):
        return None if line.startswith("add-") else super().refusal(line)


def roll_lines(roll, lists, start):
    """The calls of a roll, each wait once too early."""
    yield f"start {roll} {lists} {start}"
    for half, report in ((1, start + 10), (2, start + 80)):
        yield f"report{half} {roll} 60 {report}"
        yield f"wait{half} {roll} {report + 59}"
        yield f"wait{half} {roll} {report + 60}"
    yield f"done {roll}"


def many_calls(rounds):
    """The first keys, and then this many times a roll of the ZSK and one of the KSK, each to the
    deletion of the old key."""
    yield "zone example.com"
    yield from ("add-ksk K0 - 13 0 0 yes", "add-zsk Z0 - 13 1 0 yes")
    yield from roll_lines("algorithm-roll", "- K0,Z0", 0)
    for number in range(1, rounds + 1):
        for kind, roll in (("zsk", "zsk-roll"), ("ksk", "ksk-double-ds-roll")):
            letter, tag = kind[0].upper(), 2 * (number % 2) + (kind == "zsk")
            old, new = f"{letter}{number - 1}", f"{letter}{number}"
            yield f"add-{kind} {new} - 13 {tag} {number} yes"
            yield from roll_lines(roll, f"{old} {new}", 1000 * number)
            yield f"delete {old}"


def long_lists(count):
    """This many first CSKs, which are rolled to as many others."""
    names = [f"Kexample.com.+013+{number:05}" for number in range(2 * count)]
    first, second = ",".join(names[:count]), ",".join(names[count:])
    yield "zone example.com"
    yield from (f"add-csk {name} - 13 {tag} 0 yes" for tag, name in enumerate(names))
    yield from roll_lines("algorithm-roll", f"- {first}", 0)
    yield from roll_lines("csk-roll", f"{first} {second}", 1000)


def long_line():
    """A key of another signer whose reference is longer than any buffer, and a KSK with two such
    references."""
    name = "I" * REFERENCE
    yield "zone example.com"
    yield from (f"add-public {name} 13 0 0 yes", f"set-present {name} yes 0")
    yield f"add-ksk {'K' * REFERENCE} {'P' * REFERENCE} 13 1 0 yes"
    yield f"add-ksk {name} - 13 2 0 yes"


def every_tag():
    """A key for each key tag, and some more, which are refused for their tags."""
    yield "zone example.com"
    yield from (f"add-ksk K{tag} - 13 {tag} 0 yes" for tag in range(TAGS))
    yield from (f"add-zsk Z{tag} - 13 {tag} 0 yes" for tag in range(LATE))


def text(lines):
    return "\n".join(lines) + "\n"


def answers_of(course, count):
    """The answers to a course with this many rounds or keys."""
    keyset = KeySetWithoutRecord()
    lines = [keyset.call(line) for line in list(course(count))[1:]]
    return text([*lines, keyset.published(), answers([*course(FEW)])[-1]])


def scripts():
    """What is long, a script with it, and the answers to that."""
    refused = ["refused: Key tag already present"] * LATE
    script, answer = text(many_calls(ROUNDS)), answers_of(many_calls, ROUNDS)
    assert min(len(script), len(answer)) > MEGABYTE, "more rounds are wanted"
    yield f"{len(script):,} bytes answered by {len(answer):,}", script, answer
    script = text(long_lists(LISTED))
    yield f"lists of {LISTED:,} references", script, answers_of(long_lists, LISTED)
    script = text(long_line())
    yield f"a line of {max(map(len, long_line())):,} bytes", script, text(answers([*long_line()]))
    answer = text([*["ok"] * TAGS, *refused, NOTHING, "chain safe"])
    yield f"{TAGS + LATE:,} adds, {LATE} of them refused", text(every_tag()), answer
