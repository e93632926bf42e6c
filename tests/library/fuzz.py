"""Lets libFuzzer make texts from the stored scripts and their words. The library and a second
reader have to call the same ones malformed (`tests/library/fuzz.c`). To scripts that it made the
library has to answer as the tables do.

    python3 -m tests.library.fuzz FOLDER RUNS    takes the library that `make lib` has left there
"""

import re
import subprocess
import sys
import tempfile
from pathlib import Path

from tables import answers
from tests.gate.tools import Fault, run, status_of, stored_scripts

HERE = Path(__file__).parent
# The second judge is slow on longer scripts.
LONGEST = 60


def build(folder, program):
    sources = [HERE / name for name in ("fuzz.c", "reader.c")]
    flags = ["-O2", "-g", "-fsanitize=fuzzer,address,undefined"]
    linked = [f"-I{folder}/include", f"-L{folder}/lib", "-l:libkeyset.a"]
    try:
        run("clang", *flags, "-o", program, *sources, *linked)
    except Fault as fault:
        text = f"{fault}\nthe fuzzer wants clang's runtime libraries of {flags[2]} here"
        raise Fault(text) from None


def fuzz(folder, room, runs):
    """Runs the fuzzer. Its corpus begins with the stored scripts, and keeps them: by itself it
    wouldn't find whole rolls."""
    corpus, words, program = room / "corpus", room / "words", room / "fuzz"
    corpus.mkdir()
    found = set()
    for i, (_, script, _) in enumerate(stored_scripts()):
        (corpus / str(i)).write_text(script)
        found.update(word for word in script.split() if re.fullmatch("[A-Za-z0-9-]+", word))
    words.write_text("".join(f'"{word}"\n' for word in sorted(found)))
    build(folder, program)
    given = [f"-runs={runs}", f"-dict={words}", "-max_len=4096", "-print_final_stats=1"]
    done = subprocess.run(
        [program, *given, "-keep_seed=1", corpus], capture_output=True, text=True, cwd=room
    )
    if done.returncode:
        raise Fault(done.stderr)
    return [line for line in done.stderr.splitlines() if "DONE" in line or "stat:" in line]


def answered(path):
    """The scripts that the fuzzer has kept, with the library's answers."""
    with path.open("rb") as file:
        while lengths := file.readline():
            yield tuple(file.read(int(length)).decode("ascii") for length in lengths.split())


def compare(path):
    """Compares the answers with those of the tables."""
    compared = set()
    ended = 0
    for script, answer in answered(path):
        lines = script.removesuffix("\n").split("\n")
        if script in compared or len(lines) > LONGEST:
            continue
        compared.add(script)
        if answer != "\n".join(answers(lines)) + "\n":
            text = f"the answers differ from those of the tables:\n{script}-- answers\n{answer}"
            raise Fault(text)
        replies = zip(lines[1:], answer.split("\n"))
        ended += any(line.startswith("done") and reply == "ok" for line, reply in replies)
    if not ended:
        raise Fault("no script has a roll that came to its end")
    return f"{len(compared):,} scripts are answered as by the tables, {ended:,} have a whole roll"


def compared(folder, runs):
    """Prints what the fuzzer says, and gives what the tables say of its scripts."""
    with tempfile.TemporaryDirectory() as room:
        print(*fuzz(folder, Path(room), runs), sep="\n")
        return compare(Path(room) / "answered")


def main():
    return status_of("fuzz", lambda: compared(Path(sys.argv[1]).resolve(), sys.argv[2]))


if __name__ == "__main__":
    sys.exit(main())
