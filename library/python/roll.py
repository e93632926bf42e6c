"""Plays a script line by line, as a tool does over days: makes each call on the key set that the
calls before it have left, and prints what the program `keyset` prints.

    python3 roll.py <../../examples/ksk-roll.script
"""

import sys

from keyset import KeySet, Refused


def main() -> None:
    keys = KeySet(next(sys.stdin).rstrip("\n").removeprefix("zone "))
    for line in sys.stdin:
        try:
            print("ok", *(action.value for action in keys.call(line.rstrip("\n"))))
        except Refused as reason:
            # Nothing has changed: a wait that is too early may be made again.
            print(f"refused: {reason}")
    print(keys.published)
    print(f"chain {keys.chain}")


if __name__ == "__main__":
    main()
