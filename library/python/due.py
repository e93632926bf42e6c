"""Says which reports are due by notes, as `keyset notes` does: reads a script, an empty line, and
the notes, with lines `due SECOND` among them.

    python3 due.py <../../examples/lowered-ttl.notes
"""

import sys

from keyset import open_session


def main() -> None:
    parts = sys.stdin.read().split("\n\n")
    answers = []
    for script, notes in zip(parts[::2], parts[1::2]):
        zone, *calls = script.splitlines()
        session = open_session(zone)
        for line in calls:
            session.call(line)
        for line in notes.splitlines():
            if line.startswith("due "):
                answers.append(session.due(int(line.removeprefix("due "))))
            else:
                session.note(line)
        session.close()
    print("\n".join(answers), end="")


if __name__ == "__main__":
    main()
