"""Tests the status that sessions of the library show, after each line of each stored script.

    python3 -m tests.library.sessions FOLDER    takes the library that `make lib` has left there

Each status is JSON of one shape, and the last one of a script meets the schema. Its sets and its
verdict are those of the closing lines. What the status says can be done is tried on a copy of the
session. A key that may be deleted can be, and no other. Between rolls some start takes in a key
that may come in, and none another. A wait is accepted at its moment, and refused a second before.
The next call of a roll is accepted, and no other call of that roll. For listed keys and early ends
the status says what the lines say.
"""

import ctypes
import json
import sys
from pathlib import Path

from jsonschema.validators import validator_for

from keyset.rolls import ALGORITHM_ROLL, KSK_ROLL, ROLLS, ZSK_ROLL
from tests.gate.tools import TOP, Fault, stored_scripts

SCHEMA = json.loads((TOP / "docs" / "status.schema.json").read_text())

ROOM = 1 << 16
# The latest moment that a script can say, and a moment after all that a script can say.
LATE, PAST = (1 << 64) - 1, "past-time"
# A roll of each side, and why none of them takes in a key.
STARTS = (KSK_ROLL, ZSK_ROLL, ALGORITHM_ROLL)
NOT_TAKEN = ("refused: key has the wrong type\n", "refused: key is in the wrong state\n")

ORDER = list(ROLLS)

MEMBERS = {
    "": ["zone", "chain", "published", "keys", "rolls", "ended"],
    "chain": ["safe", "at", "ds", "dnskey", "zone"],
    "published": ["ds", "dnskey", "signers", "zone"],
    "keys": [
        *["reference", "kind", "roles", "algorithm", "tag", "private", "decoupled"],
        *["creation", "published", "visible", "ds_visible", "rrsig_visible", "withdrawn"],
        *["may_come_in", "may_be_deleted", "old_in", "new_in"],
    ],
    "roles": ["role", "state", "old", "signer", "present", "at_parent"],
    "rolls": ["roll", "phase", "ttl", "next", "not_before", "waits_for", "due"],
    "ended": ["roll", "asked"],
}


class Answered(ctypes.Structure):
    _fields_ = [
        ("status", ctypes.c_uint32),
        ("length", ctypes.c_size_t),
        ("line", ctypes.c_size_t),
    ]


class Handle(ctypes.Structure):
    _fields_ = [("place", ctypes.c_void_p), ("is_open", ctypes.c_bool)]


class Library:
    def __init__(self, path, room=ROOM):
        self.code = ctypes.CDLL(str(path))
        for name in ("call", "told", "closing", "status"):
            getattr(self.code, f"keyset_{name}").restype = Answered
        self.code.keyset_close.restype = None
        self.out, self.room = ctypes.create_string_buffer(room), ctypes.c_size_t(room)

    def open(self, line):
        handle = Handle()
        if self.code.keyset_open(line, ctypes.c_size_t(len(line)), ctypes.byref(handle)):
            raise Fault(f"not opened: {line}")
        return handle

    def text(self, name, handle, *line):
        outcome = getattr(self.code, f"keyset_{name}")(
            ctypes.byref(handle), *line, self.out, self.room
        )
        if outcome.status:
            raise Fault(f"{name}: status {outcome.status}")
        return ctypes.string_at(self.out, outcome.length).decode()

    def call(self, handle, line):
        line = line.encode()
        return self.text("call", handle, line, ctypes.c_size_t(len(line)))

    def would(self, handle, line):
        """What the session would answer to the line."""
        copy = Handle()
        if self.code.keyset_copy(ctypes.byref(handle), ctypes.byref(copy)):
            raise Fault("not copied")
        answer = self.call(copy, line)
        self.code.keyset_close(ctypes.byref(copy))
        return answer

    def close(self, handle):
        self.code.keyset_close(ctypes.byref(handle))


def expect(holds, what):
    if not holds:
        raise Fault(what)


def expect_shape(status):
    expect(list(status) == MEMBERS[""], "the members")
    expect(list(status["chain"]) == MEMBERS["chain"], "the members of the verdict")
    expect(list(status["published"]) == MEMBERS["published"], "the sets")
    for part in ("keys", "rolls", "ended"):
        for one in status[part]:
            expect(list(one) == MEMBERS[part], f"the members of {part}")
    for key in status["keys"]:
        for role in key["roles"]:
            expect(list(role) == MEMBERS["roles"], "the members of a role")
    references = [key["reference"].encode() for key in status["keys"]]
    expect(references == sorted(references), "the order of keys")
    rolls = [ORDER.index(roll["roll"]) for roll in status["rolls"]]
    expect(rolls == sorted(rolls), "the order of rolls")


def closing_of(status):
    """The closing lines that say what the status says."""
    sets = " ".join(
        f"{name}={','.join(references) or '-'}" for name, references in status["published"].items()
    )
    chain = status["chain"]
    if chain["safe"]:
        return f"{sets}\nchain safe\n"
    found = " ".join(f"{name}={chain[name]}" for name in ("at", "ds", "dnskey", "zone"))
    return f"{sets}\nchain broken {found}\n"


class RollHistory:
    """What the accepted lines say of listed keys and of early ends."""

    def __init__(self):
        self.listed, self.ended = {}, []

    def take(self, line):
        word, *fields = line.split(" ")
        if word == "start":
            roll, old, new = fields[:3]
            parts = [[key for key in keys.split(",") if key != "-"] for keys in (old, new)]
            self.listed[roll] = parts
            self.ended = [*filter(ROLLS[roll].tolerates, self.ended)]
        elif word in ("done", "abort"):
            del self.listed[fields[0]]
            if word == "abort":
                self.ended.append(fields[0])
        elif word == "delete":
            for parts in self.listed.values():
                for keys in parts:
                    keys[:] = [key for key in keys if key != fields[0]]

    def rolls_of(self, part, reference):
        return [roll for roll in ORDER if reference in self.listed.get(roll, [[], []])[part]]


def is_ok(answer):
    return answer.split()[0] == "ok"


def calls_of(roll, moment):
    return {
        "report1": f"report1 {roll} 60 {moment}",
        "wait1": f"wait1 {roll} {moment}",
        "report2": f"report2 {roll} 60 {moment}",
        "wait2": f"wait2 {roll} {moment}",
        "done": f"done {roll}",
    }


def expect_roll(library, handle, roll, counts):
    name, end = roll["roll"], roll["not_before"]
    for word, line in calls_of(name, LATE).items():
        is_over = end not in (None, PAST)
        accepted = word == roll["next"] and (not word.startswith("wait") or is_over)
        expect(is_ok(library.would(handle, line)) == accepted, f"{line}: next is {roll['next']}")
        counts["next"] += accepted
    if end is not None:
        expect_wait(library, handle, f"{roll['next']} {name}", end)
        counts["waits"] += 1
    elif roll["next"].startswith("wait"):
        # A key lacks its stamp, so no moment is late enough.
        late = library.would(handle, f"{roll['next']} {name} {LATE}")
        expect(not late.startswith("refused: wait for duration"), f"{name}: {late}")
    if "UpdateDsRrset" in roll["due"]:
        expect(roll["waits_for"] == "parent", "it waits for the parent")
    else:
        waits = roll["next"].startswith("wait")
        expect(roll["waits_for"] == ("caches" if waits else "you"), "whom it waits for")


def expect_wait(library, handle, wait, end):
    """A wait is accepted at its end, and no second before."""
    if end == PAST:
        end = LATE + 1
    else:
        expect(is_ok(library.would(handle, f"{wait} {end}")), f"{wait} {end}")
    # (If nothing is waited for, there may be no second before.)
    if end > 0:
        early = library.would(handle, f"{wait} {end - 1}")
        expect(early.startswith("refused: wait for duration"), f"{wait} {end - 1}: {early}")


def state_of(role):
    """The word for a role: docs/REFERENCE.md has its table. At work a KSK role has a DS, too."""
    has_ds = role["at_parent"] or role["role"] != "ksk"
    if not any(role[flag] for flag in ("signer", "present", "at_parent")):
        return "stale" if role["old"] else "future"
    if role["old"]:
        return "leaving"
    return "active" if role["signer"] and role["present"] and has_ds else "incoming"


def expect_key(library, handle, key, history, counts):
    reference = key["reference"]
    deleted = is_ok(library.would(handle, f"delete {reference}"))
    expect(deleted == key["may_be_deleted"], f"delete {reference}")
    counts["deletions"] += deleted
    for role in key["roles"]:
        expect(role["state"] == state_of(role), f"{reference}: its state")
    expect(key["old_in"] == history.rolls_of(0, reference), f"{reference}: old in")
    expect(key["new_in"] == history.rolls_of(1, reference), f"{reference}: new in")
    if not history.listed:
        answers = {library.would(handle, f"start {roll} - {reference} {LATE}") for roll in STARTS}
        taken = bool(answers.difference(NOT_TAKEN))
        expect(taken == key["may_come_in"], f"start of {reference}: {answers}")
        counts["starts"] += taken


def expect_status(library, handle, history, counts):
    text = library.text("status", handle)
    expect(text.endswith("}\n") and text.count("\n") == 1, "one line")
    status = json.loads(text)
    expect_shape(status)
    expect(closing_of(status) == library.text("closing", handle), "the closing lines")
    for key in status["keys"]:
        expect_key(library, handle, key, history, counts)
    expect({roll["roll"] for roll in status["rolls"]} == set(history.listed), "the rolls")
    for roll in status["rolls"]:
        expect_roll(library, handle, roll, counts)
    expect([one["roll"] for one in status["ended"]] == history.ended, "the early ends")
    counts["statuses"] += 1
    return status


def play(library, script, answers, counts):
    handle, history = library.open(script[0].encode()), RollHistory()
    due, status = {}, expect_status(library, handle, history, counts)
    for line, wanted in zip(script[1:], answers):
        answer = library.call(handle, line)
        expect(answer == wanted, f"{line}: {answer}")
        word, *fields = line.split(" ")
        if is_ok(answer):
            history.take(line)
            due[fields[0]] = answer.split()[1:]
        status = expect_status(library, handle, history, counts)
        for one in status["rolls"]:
            expect(one["due"] == due[one["roll"]], f"{line}: what is due")
        for one in status["ended"]:
            expect(one["asked"] == due[one["roll"]], f"{line}: what an early end asked")
    faults = [fault.message for fault in validator_for(SCHEMA)(SCHEMA).iter_errors(status)]
    expect(not faults, f"the schema: {faults}")
    library.close(handle)


def main():
    folder = Path(sys.argv[1]).resolve()
    library = Library(folder / "lib" / "libkeyset.so")
    counts = dict.fromkeys(("statuses", "deletions", "starts", "waits", "next"), 0)
    for name, script, answers in stored_scripts():
        try:
            play(library, script.splitlines(), answers.splitlines(keepends=True), counts)
        except Fault as fault:
            print(f"{name}: {fault}")
            return 1
    if not all(counts.values()):
        print(f"too little was tried: {counts}")
        return 1
    print(
        f"{counts['statuses']} statuses are as the lines say; on copies {counts['deletions']}"
        f" deletions, {counts['starts']} starts, {counts['waits']} waits and {counts['next']} next"
        " calls went as they say"
    )
    return 0


if __name__ == "__main__":
    sys.exit(main())
