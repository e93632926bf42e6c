"""The worst scripts that we know, each by its length (worst.py)."""

from successive_rolls import FIRST, script, whole

TTL = 4294967295


def lines(*parts):
    return FIRST + "".join(f"{line}\n" for part in parts for line in part)


def early_ends(count):
    """Two rolls, started and ended early in turn."""
    keys = ["add-ksk K1 - 13 2 150 yes", "add-zsk Z1 - 13 3 150 yes"]
    turn = [
        "start ksk-double-ds-roll K0 K1 200", "abort ksk-double-ds-roll",
        "start zsk-double-signature-roll Z0 Z1 200", "abort zsk-double-signature-roll",
    ]
    return lines(keys, turn * (count // 4))


def toggles(count):
    """A key comes into each set and leaves it again."""
    keys = ["add-ksk K1 - 13 2 150 yes", "add-zsk Z1 - 13 3 150 yes", "add-public P1 13 4 150 yes"]
    turn = [
        f"{line} {value}{moment}" for value in ("yes", "no") for line, moment in (
            ("set-at-parent K1", ""), ("set-present P1", " 200"), ("set-signer Z1", ""),
        )
    ]
    return lines(keys, turn * (count // 6))


def growing_sets(count):
    """Each round brings one more key into each set. The keys with a chain are the last in order."""
    keys = [
        "add-ksk zK - 13 65000 0 yes", "add-zsk zZ - 13 65001 0 yes",
        "set-present zK yes 160", "set-signer zK yes", "set-at-parent zK yes",
        "set-present zZ yes 160", "set-signer zZ yes",
    ]
    rounds = []
    for i in range(count // 12):
        kinds = ("ksk", "ksk", "zsk", "zsk", "zsk")
        rounds += [f"add-{kind} {name}{i} - 13 {5 * i + n + 2} 150 yes"
                   for n, (kind, name) in enumerate(zip(kinds, "ABCDE"))]
        rounds += [f"add-public F{i} 13 {i + 60000} 150 yes"]
        rounds += [f"set-at-parent A{i} yes", f"set-signer B{i} yes", f"set-present C{i} yes 160",
                   f"set-signer D{i} yes", f"set-present F{i} yes 160", f"set-signer E{i} yes"]
    return lines(keys, rounds)


def subsets(count):
    """The sets of some keys in turn, no two of them the same (a Gray code), in each kind."""
    names = [(f"A{i}", f"B{i}", f"C{i}") for i in range(16)]
    keys = [line for i, (a, b, c) in enumerate(names) for line in (
        f"add-ksk {a} - 13 {3 * i + 2} 150 yes", f"add-zsk {b} - 13 {3 * i + 3} 150 yes",
        f"add-zsk {c} - 13 {3 * i + 4} 150 yes",
    )]
    turns, on = [], set()
    for number in range(1, count // 3 + 1):
        i = min((number & -number).bit_length() - 1, 15)
        on ^= {i}
        value = "yes" if i in on else "no"
        a, b, c = names[i]
        turns += [f"set-at-parent {a} {value}", f"set-present {b} {value} 200",
                  f"set-signer {c} {value}"]
    return lines(keys, turns)


def in_use(count, keys=2000):
    """Many keys sign the zone, and one of them leaves and comes back."""
    adds = [f"add-zsk A{i} - 13 {i + 2} 150 yes" for i in range(keys)]
    shown = [line for i in range(keys)
             for line in (f"set-present A{i} yes 160", f"set-signer A{i} yes")]
    turns = [f"set-signer A{keys // 2} {'yes' if i % 2 else 'no'}" for i in range(count)]
    return lines(adds, shown, turns)


def in_use_by_a_roll(count):
    """A roll brings many keys into use, and one key beside them leaves and comes back."""
    names = [f"A{i}" for i in range(count // 5)]
    keys = [f"add-zsk {name} - 13 {i + 10} 150 yes" for i, name in enumerate(names)]
    begun = ["add-public P 13 2 150 yes", *whole("zsk-roll", f"Z0 {','.join(names)}", 200)]
    turns = (f"set-present P {'no' if i % 2 else 'yes'} 400" for i in range(count - len(names)))
    return lines(keys, begun, turns)


def published(count):
    """Keys of another signer are published one by one."""
    return lines(
        line for i in range(count // 2)
        for line in (f"add-public P{i} 13 {i + 2} 150 yes", f"set-present P{i} yes 160")
    )


def long_reference(count, size=1_000_000):
    """A key with a very long reference is in use, and others are published one by one."""
    long = "L" * size
    keys = [f"add-zsk {long} - 13 65000 150 yes", f"set-present {long} yes 160",
            f"set-signer {long} yes"]
    return lines(keys, (
        line for i in range(count // 2)
        for line in (f"add-public P{i} 13 {i + 2} 150 yes", f"set-present P{i} yes 160")
    ))


def long_reference_beside(count, size=1_000_000):
    """A key with a very long reference is in use, and another leaves and comes back."""
    long = "L" * size
    keys = [f"add-zsk {long} - 13 65000 150 yes", f"set-present {long} yes 160",
            f"set-signer {long} yes", "add-public P 13 2 150 yes"]
    return lines(keys, (f"set-present P {'no' if i % 2 else 'yes'} 160" for i in range(count)))


def never_over(count):
    """Reports that are never over, each with a later end and a higher base. The stamps are set by
    hand, so that no wait is refused; and a key that never leaves has the chain hold."""
    first = FIRST.replace("start", "add-zsk A - 13 65000 0 yes\nstart").replace(",Z0", ",A,Z0")
    turns, now = [], 2 * TTL
    for i in range(count // 12):
        old, new, now = f"Z{i % 2}", f"Z{1 - i % 2}", now + 1
        turns += [
            f"add-zsk {new} - 13 {2 - i % 2} 150 yes", f"start zsk-roll {old} {new} {now}",
            f"report1 zsk-roll {TTL} {now}", f"set-visible {new} 0", "set-visible A 0",
            f"wait1 zsk-roll {now}", f"report2 zsk-roll {TTL} {now}",
            f"set-rrsig-visible {new} 0", "set-rrsig-visible A 0", f"wait2 zsk-roll {now}",
            "done zsk-roll", f"delete {old}",
        ]
    return first + "".join(f"{line}\n" for line in turns)


def anchors(count, turn=2, has_signers=False):
    """Each DS set holds by one or two of so many keys in turn, which come last in the order of the
    keys. Then come new DNSKEY sets. If there are signers, as many other keys sign these."""
    part = count // (9 if has_signers else 6)
    names, last = [f"a{i:05}" for i in range(part)], [f"z{i}" for i in range(turn)]
    signers = [f"b{i:05}" for i in range(part if has_signers else 0)] + last
    keys = [f"add-ksk {name} - 13 {i + 2} 150 yes" for i, name in enumerate([*names, *signers])]
    use = [line for name in signers
           for line in (f"set-present {name} yes 160", f"set-signer {name} yes")]
    parent = [f"set-at-parent {last[0]} yes"]
    parent += [line for i, name in enumerate(names) for line in (
        f"set-at-parent {name} yes", f"set-at-parent {last[(i + 1) % turn]} yes",
        f"set-at-parent {last[i % turn]} no",
    )]
    public = [line for i in range(part) for line in (
        f"add-public p{i} 13 {i + 10000} 150 yes", f"set-present p{i} yes 160",
    )]
    return lines(keys, use, parent, public)


def equal_sums(count, shared=None, size=0):
    """DNSKEY sets of shared keys and of two more, whose positions add up to one number. One key may
    have a reference of this size."""
    half = count // 8
    common = [f"a{i:05}" for i in range(half if shared is None else shared)]
    common += ["L" * size] if size else []
    one, other = ([f"{letter}{i:05}" for i in range(half)] for letter in "pq")
    names = [*common, *one, *other]
    keys = [f"add-public {name} 13 {i + 10} 150 yes" for i, name in enumerate(names)]
    turns = [
        f"set-present {name} {value} 160" for pair in zip(one, reversed(other))
        for value in ("yes", "no") for name in pair
    ]
    return lines(keys, (f"set-present {name} yes 160" for name in common), turns)


def two_sets(count):
    """Two sets of each kind in turn, and the chain is broken by the last calls."""
    keys = ["add-ksk K1 - 13 2 150 yes", "add-zsk Z1 - 13 3 150 yes", "add-public P 13 4 150 yes"]
    turn = [
        f"{line} {value}{moment}" for value in ("yes", "no") for line, moment in (
            ("set-present P", " 160"), ("set-signer Z1", ""), ("set-at-parent K1", ""),
        )
    ]
    end = ["set-at-parent K0 no", "set-at-parent K1 yes"]
    return lines(keys, turn * (count // 6), end)


def gray(names, line):
    """Lines that show the sets of these names in turn, no two of them the same."""
    on = set()
    for number in range(1, 1 << len(names)):
        i = (number & -number).bit_length() - 1
        on ^= {i}
        yield line.format(names[i], "yes" if i in on else "no")


def retired(count):
    """DNSKEY sets, no two the same, which a report retires; then rolls."""
    names = [f"P{i}" for i in range((count // 2).bit_length() - 1)]
    keys = [f"add-public {name} 13 {i + 60010} 150 yes" for i, name in enumerate(names)]
    return lines(keys, gray(names, "set-present {} {} 160")) + script(count // 2)[len(FIRST):]


def first_ds_last(count):
    """Before the first DS of a zone, DNSKEY sets and zone signers, no two the same, all of which
    hold."""
    names = [(f"P{i}", f"Z{i}") for i in range((count // 2).bit_length() - 1)]
    keys = ["add-ksk K0 - 13 2 150 yes", "add-zsk A - 13 3 150 yes"]
    keys += [line for i, (public, zsk) in enumerate(names) for line in (
        f"add-public {public} 13 {2 * i + 10} 150 yes", f"add-zsk {zsk} - 13 {2 * i + 11} 150 yes",
    )]
    begun = ["start algorithm-roll - K0,A 160", "report1 algorithm-roll 60 160",
             f"set-present {names[0][0]} no 300"]
    public = gray([one for one, _ in names], "set-present {} {} 300")
    zsks = gray([other for _, other in names], "set-signer {} {}")
    turns = (line for pair in zip(public, zsks) for line in pair)
    first = "zone example.com\n"
    return first + lines(keys, begun, turns, ["wait1 algorithm-roll 300"])[len(FIRST):]


def two_rolls_waits(count):
    """A KSK and a ZSK roll at once on many keys, and their waits, made too early, in turn."""
    zsks = [f"A{i}" for i in range(count // 6)]
    keys = [f"add-zsk {name} - 13 {i + 10} 150 yes" for i, name in enumerate(zsks)]
    begun = ["add-ksk K1 - 13 2 150 yes", f"start zsk-roll Z0 {','.join(zsks)} 200",
             "start ksk-roll K0 K1 200", "report1 zsk-roll 3600 210", "report1 ksk-roll 3600 210"]
    waits = (f"wait1 {'ksk' if i % 2 else 'zsk'}-roll 300" for i in range(5 * count // 6))
    return lines(keys, begun, waits)


def waits_after(count, stamp):
    """A wait of many keys, made too early, after each stamp that is set by hand: `stamp` gives its
    key and its moment by its number."""
    zsks = [f"A{i}" for i in range(count // 6)]
    keys = [f"add-zsk {name} - 13 {i + 10} 150 yes" for i, name in enumerate(zsks)]
    begun = [f"start zsk-roll Z0 {','.join(zsks)} 200", "report1 zsk-roll 3600 210"]
    stamps = (stamp(i) for i in range(5 * count // 12))
    turns = (line for key, moment in stamps
             for line in (f"set-visible A{key} {moment}", "wait1 zsk-roll 300"))
    return lines(keys, begun, turns)


def waits_after_stamps(count, turn=1):
    """Stamps of some keys in turn, first a later one of each, and then an earlier one."""
    return waits_after(count, lambda i: (i % turn, 210 + i // turn % 2))


def waits_after_all_stamps(count):
    """Each key gets a later stamp than those before it. Then, from the last key on, each gets an
    earlier one than all others, so that the end of the wait moves back with each."""
    keys = count // 6

    def stamp(i):
        round_, place = divmod(i, keys)
        return (keys - 1 - place, 100) if round_ % 2 else (place, 210 + place)

    return waits_after(count, stamp)


def broken_first(count):
    """The chain is broken by the first call, and keys are published after it."""
    return lines(["set-at-parent K0 no", "set-signer K0 no", "set-at-parent K0 yes"], (
        line for i in range(count // 2)
        for line in (f"add-public P{i} 13 {i + 2} 150 yes", f"set-present P{i} yes 160")
    ))


def broken_last(count):
    """As `subsets`, and the chain is broken by the last call."""
    return subsets(count) + "set-signer Z0 no\n"


def adds(count):
    return lines(f"add-zsk A{i} - 13 {i + 2} 150 yes" for i in range(count))


def long_lists(count):
    """A roll to many keys, and then from these to many others: its start and its early end."""
    half = count // 2
    old = [f"A{i}" for i in range(half)]
    new = [f"B{i}" for i in range(half)]
    adds = [f"add-zsk {name} - 13 {i + 2} 150 yes" for i, name in enumerate(old + new)]
    roll = whole("zsk-roll", f"Z0 {','.join(old)}", 200)
    start = f"start zsk-roll {','.join(old)} {','.join(new)} 400"
    return lines(adds, roll, [start, "abort zsk-roll"] * 2)


def stale(count):
    """Keys that were never published are set stale, one after another."""
    keys = [f"add-zsk A{i} - 13 {i + 2} 150 yes" for i in range(count // 2)]
    return lines(keys, (f"set-stale A{i}" for i in range(count // 2)))


def folded(one, other):
    product = one * other
    return (product & (1 << 64) - 1) ^ product >> 64


def colliding(count):
    """References of 32 bytes that have the same hash. Their last eight bytes don't matter.

    The hash multiplies two halves of 16 bytes, each mixed with what came before. If the first half
    undoes what came before, the product is zero, whatever the second half is.
    """
    multiplier, seed = 0x9E3779B97F4A7C15, 0x243F6A8885A308D3
    visible = [c for c in range(0x21, 0x7F) if c != ord(",")]
    for number in range(1 << 20):
        begin = f"{number:016d}".encode()
        state = folded(
            int.from_bytes(begin[:8], "little") ^ seed + 32,
            int.from_bytes(begin[8:], "little") ^ multiplier,
        )
        undone = state.to_bytes(8, "little")
        if all(c in visible for c in undone):
            break
    start = (begin + undone).decode("ascii")
    return lines(
        f"add-zsk {start}{i:08d} - 13 {i + 2} 150 yes" for i in range(count)
    )


def line_feeds(count):
    return b"\n" * count
