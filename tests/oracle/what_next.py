"""What a policy says to do next, by a second reader of the definition: crates/dnssec_policy/specs.
It shares no text with the program, and stands on replay/tables.py. Names and order of the functions
are those of the definition. Times are seconds."""

from __future__ import annotations

from collections.abc import Iterable, Iterator, Mapping, Sequence
from dataclasses import dataclass
from typing import Callable, NamedTuple, Optional, Union

from judge import SPEAKS_OF, origin
from keyset.rolls import ALGORITHM_ROLL, ROLLS
from tables import Key, KeySet
from tests.oracle.policy import Policy, Renewal, role_of
from tests.oracle.spread import KINDS, LONGEST_TTL, NoteHistory

LAST_SECOND = 2**64 - 1
AT_REST = "nothing: the zone is as the policy wants it"


# ---- what there is to do: Todo.antt


class Make(NamedTuple):
    """A call, as a line of a script."""

    line: str


class Publish(NamedTuple):
    kind: str


class NeedKey(NamedTuple):
    role: str


class Watch(NamedTuple):
    kind: str


class NotBefore(NamedTuple):
    moment: int


class Stuck(NamedTuple):
    why: str


class Rest(NamedTuple):
    pass


Todo = Union[Make, Publish, NeedKey, Watch, NotBefore, Stuck, Rest]
RANKS = (Make, Publish, NeedKey, Watch, NotBefore, Stuck, Rest)


def urgency(todo: Todo) -> tuple[int, int]:
    return RANKS.index(type(todo)), todo.moment if isinstance(todo, NotBefore) else 0


def soonest(todos: Iterable[Todo]) -> Todo:
    """The most urgent, or the first of those."""
    return min([*todos, Rest()], key=urgency)


# ---- what is known of a zone: View.antt


@dataclass
class View:
    """What is known of a zone at a moment: its key set, the positions of the last second waits of
    its rolls, that of the first call by hand, and the history of its notes."""

    set: KeySet
    last: Mapping[str, int]
    by_hand: Optional[int]
    history: NoteHistory
    now: int

    @classmethod
    def after(cls, lines: Sequence[str], notes: Sequence[str], now: int) -> View:
        """After the calls of a script, by its notes."""
        keyset, last, by_hand = KeySet(), {}, []
        for number, line in enumerate(lines[1:], start=1):
            word, name, *_ = line.split(" ")
            is_by_hand = makes_by_hand(keyset, word, name)
            if keyset.call(line).startswith("ok"):
                by_hand += [number] if is_by_hand else []
                last |= {name: number} if word == "wait2" else {}
        return cls(keyset, last, min(by_hand, default=None), NoteHistory(notes), now)

    def reach(self, kind: str, base: int) -> Optional[type]:
        """What brings the sets of a position to all servers; None if they are there."""
        spread = self.history.spread(kind, base)
        if spread.position < base:
            return Publish
        return None if spread.is_everywhere(base, self.now) else Watch

    def step(self, roll: str) -> Optional[int]:
        """The position of the last start or first wait."""
        record = self.set.record
        return max((n for n, at in enumerate(record) if at.step == roll), default=None)

    def end(self, roll: str) -> Union[int, Stuck]:
        """When the wait is over, or why nobody can say so or name it in a call."""
        word, ttl = self.set.phases[roll]
        stamps = self.set.checked(word, roll)
        if None in stamps:
            return Stuck(f"a key lacks the stamp for the wait of {roll}")
        end = max((stamp + ttl for stamp in stamps), default=0) if ttl else 0
        if end > LAST_SECOND:
            return Stuck(f"the wait of {roll} ends after all time")
        return end


# ---- calls by hand: ByHand.antt


def makes_by_hand(keyset: KeySet, word: str, name: str) -> bool:
    """A call ends a roll early, or sets a flag or a time. Other signers' keys may come and go."""
    if word == "set-present" and name in keyset.keys:
        return keyset.keys[name].kind != "include"
    return word == "abort" or word.startswith("set-") and word != "set-decoupled"


# ---- rolls in progress: InProgress.antt


def due_for(view: View, kind: str, base: int) -> Optional[int]:
    """The TTL with which a report is true, of this kind; None if there is none."""
    spread = view.history.spread(kind, base)
    if not spread.is_everywhere(base, view.now):
        return None
    left = max(0, spread.expired - view.now)
    return left if left <= LONGEST_TTL else None


def report_next(view: View, word: str, roll: str) -> Todo:
    step, ttl = view.step(roll), 0
    if step is None:
        return Stuck(f"the last step of {roll} isn't known")
    kinds = SPEAKS_OF[roll][word == "report2"]
    for kind in KINDS:
        if kind in kinds:
            base = origin(view.set.record, kind, step)
            due = due_for(view, kind, base)
            if due is None:
                brings = view.reach(kind, base)
                return brings(kind) if brings else NotBefore(view.now + 1)
            ttl = max(ttl, due)
    ttl = view.history.lasting(kinds, ttl)
    if ttl > LONGEST_TTL:
        return NotBefore(view.now + 1)
    return Make(f"{word} {roll} {ttl} {view.now}")


def wait_next(view: View, word: str, roll: str) -> Todo:
    end = view.end(roll)
    if isinstance(end, Stuck):
        return end
    return Make(f"{word} {roll} {view.now}") if end <= view.now else NotBefore(end)


def once_settled(view: View, roll: str, base: int, todo: Todo) -> Todo:
    """What is to be done once all that the last actions wait for is there."""
    for kind in KINDS:
        if kind in ROLLS[roll].watched[2]:
            if brings := view.reach(kind, base):
                return brings(kind)
    return todo


def end_next(view: View, word: str, roll: str) -> Todo:
    base = view.last.get(roll)
    if base is None:
        return Stuck(f"the second wait of {roll} isn't known")
    return once_settled(view, roll, base, Make(f"done {roll}"))


PHASES: dict[str, Callable[[View, str, str], Todo]] = {
    "report1": report_next, "wait1": wait_next, "report2": report_next, "wait2": wait_next,
    "done": end_next,
}


def rolls_next(view: View) -> Todo:
    phases = {roll: view.set.phases[roll][0] for roll in ROLLS if roll in view.set.phases}
    return soonest(PHASES[word](view, word, roll) for roll, word in phases.items())


# ---- keys: Keys.antt


def entries(view: View) -> list[tuple[str, Key]]:
    """The keys in the order of their references' bytes."""
    return sorted(view.set.keys.items())


def has_role(role: str, key: Key) -> bool:
    return key.kind == role


def is_at_work(is_ksk: bool, state: set[str]) -> bool:
    wanted = {"present", "signer"} | ({"at_parent"} if is_ksk else set())
    return "old" not in state and wanted <= state


def serves(role: str, key: Key) -> bool:
    """It is of this role, and at work: a KSK role has its DS."""
    is_ksk = {"ksk": [True], "zsk": [False], "csk": [True, False]}[role]
    return has_role(role, key) and all(map(is_at_work, is_ksk, key.states))


def is_in_use(key: Key) -> bool:
    return key.kind != "include" and any("old" not in it and it for it in key.states)


def lists_kind(roll: str, key: Key) -> bool:
    return key.kind in ROLLS[roll].kinds


def is_unwanted(policy: Policy, key: Key) -> bool:
    is_wanted = key.algorithm == policy.algorithm and key.kind in policy.roles
    return is_in_use(key) and not is_wanted


def wants_others(policy: Policy, keys: Sequence[Key]) -> bool:
    is_served = all(any(serves(role, key) for key in keys) for role in policy.roles)
    return not is_served or any(is_unwanted(policy, key) for key in keys)


def is_new(policy: Policy, role: str, key: Key) -> bool:
    is_fresh = key.available and not any(key.states)
    return has_role(role, key) and is_fresh and key.algorithm == policy.algorithm


def over_from(renewal: Renewal, published: int) -> Optional[int]:
    """The moment in seconds from which a key's time is over, if ever."""
    ends = [] if renewal.lifetime is None else [published + renewal.lifetime]
    if renewal.once is not None and published < renewal.once:
        ends.append(renewal.once)
    return min(ends, default=None)


def first_over(policy: Policy, role: str, keys: Sequence[Key]) -> Optional[int]:
    at_work = [key for key in keys if serves(role, key)]
    ends = [over_from(policy.renewals[role], key.stamps.get("published", 0)) for key in at_work]
    return min((end for end in ends if end is not None), default=None)


# ---- all of it: Next.antt


def deletions(policy: Policy, view: View) -> Iterable[Todo]:
    for name, key in entries(view):
        is_rolled = any(lists_kind(roll, key) for roll in view.set.phases)
        if not is_rolled and all(state == {"old"} for state in key.states):
            withdrawn = key.stamps.get("withdrawn")
            leaves = 0 if withdrawn is None else withdrawn + policy.delete_after
            yield delete_next(view, name) if leaves <= view.now else NotBefore(leaves)


def delete_next(view: View, name: str) -> Todo:
    todo: Todo = Make(f"delete {name}")
    for roll in ROLLS:
        if roll in view.last:
            todo = once_settled(view, roll, view.last[roll], todo)
    return todo


def may_begin(view: View, roll: str) -> bool:
    return all(map(ROLLS[roll].tolerates, view.set.phases))


def start_with(policy: Policy, view: View, roll: str, roles: Sequence[str]) -> Todo:
    news = []
    for role in roles:
        found = [name for name, key in entries(view) if is_new(policy, role, key)]
        if not found:
            return NeedKey(role)
        news.append(found[0])
    olds = [name for name, key in entries(view) if lists_kind(roll, key) and is_in_use(key)]
    lists = " ".join(",".join(names) or "-" for names in (olds, news))
    return Make(f"start {roll} {lists} {view.now}")


def change(policy: Policy, view: View) -> Todo:
    if may_begin(view, ALGORITHM_ROLL) and wants_others(policy, list(view.set.keys.values())):
        return start_with(policy, view, ALGORITHM_ROLL, policy.roles)
    return Rest()


def renewal(policy: Policy, view: View, roll: str) -> Todo:
    keys, role = list(view.set.keys.values()), role_of(roll)
    if not may_begin(view, roll) or any(is_unwanted(policy, key) for key in keys):
        return Rest()
    over = first_over(policy, role, keys)
    if over is None:
        return Rest()
    if over > view.now:
        return NotBefore(over)
    return start_with(policy, view, roll, [role])


def next_of(policy: Policy, view: View) -> Todo:
    renewals = (renewal(policy, view, roll) for roll in policy.rolls)
    stuck = next(whys(policy, view), None)
    return soonest([rolls_next(view), soonest(deletions(policy, view)), change(policy, view),
                    *renewals, Rest() if stuck is None else Stuck(stuck)])


def answer_of(policy: Policy, view: View) -> Todo:
    """Nothing after a call by hand. A cause that lasts is said in place of a moment."""
    if view.by_hand is not None:
        return Stuck(f"call {view.by_hand} was made by hand")
    todo, stuck = next_of(policy, view), next(whys(policy, view), None)
    return Stuck(stuck) if isinstance(todo, NotBefore) and stuck and lasts(stuck) else todo


def lasts(why: str) -> bool:
    """It doesn't go away by itself."""
    return "32 bits" not in why and "beside" not in why


# ---- what is wanted and isn't done: Stuck.antt


def whys(policy: Policy, view: View) -> Iterator[str]:
    """Why something isn't done that the policy wants, in this order."""
    for roll in ROLLS:
        if roll in view.set.phases:
            yield from roll_why(view, roll)
    keys = list(view.set.keys.values())
    if wants_others(policy, keys):
        yield from barred(view, ALGORITHM_ROLL)
    for roll in policy.rolls:
        over = first_over(policy, role_of(roll), keys)
        if over is not None and over <= view.now:
            yield from barred(view, roll)
    if any(is_left_over(view, key) for key in keys):
        yield "a key is on its way out, and no roll takes it out"


def roll_why(view: View, roll: str) -> Iterator[str]:
    word = view.set.phases[roll][0]
    todo = PHASES[word](view, word, roll)
    if isinstance(todo, Stuck):
        yield todo.why
    elif isinstance(todo, NotBefore) and word.startswith("report"):
        yield f"{roll} has to report a TTL of more than 32 bits"


def barred(view: View, roll: str) -> Iterator[str]:
    if not may_begin(view, roll):
        yield f"{roll} may not begin beside the rolls in progress"


def is_left_over(view: View, key: Key) -> bool:
    is_leaving = any("old" in state and state != {"old"} for state in key.states)
    is_rolled = any(lists_kind(roll, key) for roll in view.set.phases)
    return key.kind != "include" and is_leaving and not is_rolled


# ---- as a text


class PolicyFault(ValueError):
    """Why a policy says nothing."""


def shown(policy: Policy, todo: Todo) -> str:
    """The line that the program prints."""
    if isinstance(todo, Make):
        return todo.line
    if isinstance(todo, NeedKey):
        return f"key {todo.role} {policy.algorithm}"
    if isinstance(todo, NotBefore):
        return f"until {todo.moment}"
    if isinstance(todo, (Publish, Watch)):
        return f"{type(todo).__name__.lower()} {todo.kind}"
    if isinstance(todo, Stuck):
        return f"nothing: {todo.why}"
    return AT_REST


def said(policy: Sequence[str], lines: Sequence[str], notes: Sequence[str], now: int) -> str:
    """What a policy says to do next, after these lines and notes, at a second since 1970."""
    read, view = Policy.read(policy), View.after(lines, notes, now)
    if fault := read.too_short(view.history):
        raise PolicyFault(f"policy: {fault.text}")
    return shown(read, answer_of(read, view))
