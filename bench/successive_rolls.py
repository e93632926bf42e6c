"""How the time and the memory of the program grow with the calls of a script.

    python3 bench/successive_rolls.py crates/keyset/out/keyset

Each script gives a zone its first keys, and then rolls its ZSK and its KSK in turn, each roll to
its end, with the deletion of the old key. So caches lose all that is old, and the window that a
judge looks at doesn't grow. It prints the calls, the instructions that the program runs, as
valgrind counts them, the ratio to those of half as many calls, the least processor time of some
runs, and their greatest memory. The time includes the program's start.
"""

import sys

from programs import Bench

FIRST = """\
zone example.com
add-ksk K0 - 13 0 0 yes
add-zsk Z0 - 13 1 0 yes
start algorithm-roll - K0,Z0 0
report1 algorithm-roll 60 10
wait1 algorithm-roll 70
report2 algorithm-roll 60 80
wait2 algorithm-roll 140
done algorithm-roll
"""
RUNS = 50


def whole(roll, lists, t):
    """A roll from its start to its end, with waits of a minute."""
    return [f"start {roll} {lists} {t}", f"report1 {roll} 60 {t}", f"wait1 {roll} {t + 60}",
            f"report2 {roll} 60 {t + 60}", f"wait2 {roll} {t + 120}", f"done {roll}"]


def replaced(kind, old, new, tag, t):
    """A key comes in by a roll, and the old one is deleted."""
    return [f"add-{kind} {new} - 13 {tag} {t} yes", *whole(f"{kind}-roll", f"{old} {new}", t),
            f"delete {old}"]


def script(calls):
    """A script of this many calls, a multiple of 8."""
    parts, keys = [FIRST], {"ksk": "K0", "zsk": "Z0"}
    for number in range(1, calls // 8):
        kind = "zsk" if number % 2 else "ksk"
        old, new, t = keys[kind], f"{kind[0].upper()}{number}", 1000 * number
        keys[kind] = new
        parts += (f"{line}\n" for line in replaced(kind, old, new, number % 60000 + 2, t))
    return "".join(parts)


def main():
    before = None
    print("| Calls | Instructions in millions | To half as many | Milliseconds | Memory in MB |")
    print("|---|---|---|---|---|")
    with Bench() as bench:
        program = bench.programs(sys.argv[1], None)[0]
        for calls in (1000, 2000, 4000, 8000, 16000):
            given = bench.script("given", script(calls))
            count = bench.instructions(program, given)
            seconds, memory = bench.least(program, given, RUNS)
            with open(bench.answers) as file:
                last = file.read().splitlines()[-1]
            if last != "chain safe":
                sys.exit(last)
            ratio = f"{count / before:.2f}" if before else ""
            row = [f"{calls:,}", f"{count / 1e6:.1f}", ratio, f"{seconds * 1000:.1f}"]
            print(f"| {' | '.join([*row, f'{memory:.1f}'])} |", flush=True)
            before = count


if __name__ == "__main__":
    main()
