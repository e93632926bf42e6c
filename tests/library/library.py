"""Tests the library that `make lib` makes, and its callers in C, Rust and Python (test_library.py).

    python3 -m tests.library.library FOLDER valgrind|asan
            its tests in C, under a checker of memory
    python3 -m tests.library.library FOLDER elsewhere
            its tests in C: those of another architecture, by the compiler CC, run under RUNNER
    python3 -m tests.library.library FOLDER python
            its tests in Python: for a Python of another architecture, on one of EVERY scripts

A script and its answers are those of `replay/scripts.txt`.
"""

import os
import re
import subprocess
import sys
import tempfile
from inspect import signature
from pathlib import Path

from tests.gate.tools import (
    C99, CC, EVERY, NOTES_EXAMPLE, RUNNER, STORED, STRICT, TOP, WRAPPED, Fault, c_flags, kit, run,
    stored_scripts,
)
from tests.library import install, programs, rust, session_notes
from tests.library import scripts_in_python as by_python
from tests.scripts import words

HERE, LIBRARY = Path(__file__).parent, TOP / "library"

# What the header declares.
EXPORTS = set(re.findall(r"^\S.* \*?(keyset_\w+)\(", (LIBRARY / "keyset.h").read_text(), re.M))
# Under a checker of memory it would take too long to try each length.
STEP = 61


def expect_exports(folder):
    # The tools of the toolchain are one file, which does what the name that it is called by says.
    tools = kit() / "toolchain" / "bin" / "clang"
    for file, flags in (("libkeyset.a", []), ("libkeyset.so", ["-D"])):
        words = ["llvm-nm", "--defined-only", "--extern-only", *flags, folder / "lib" / file]
        named = [line.split() for line in run(*words, executable=tools).splitlines()]
        exported = {words[2] for words in named if len(words) == 3}
        if exported != EXPORTS:
            raise Fault(f"{file} exports {sorted(exported)}")


def expect_no_links(folder):
    """`make check` refuses a tree that has links."""
    links = [path.name for path in folder.rglob("*") if path.is_symlink()]
    if links:
        raise Fault(f"{folder} has links: {links}")


def build_in_c(folder, program, *flags, more=()):
    """Builds the tests in C as a program."""
    sources = [HERE / name for name in ("library.c", "reader.c", *more)]
    run(CC, *STRICT, *WRAPPED, *flags, "-o", program, *sources, *c_flags(folder))
    return program


def build_sessions(folder, program, *flags):
    """Builds tests in C as a program: those of the file of its name."""
    source = HERE / f"{program.name}.c"
    run(CC, *STRICT, *WRAPPED, *flags, "-o", program, source, *c_flags(folder))
    return program


def test_in_c(folder, room):
    return run(build_in_c(folder, room / "library"), STORED).strip()


def test_sessions(folder, room):
    return run(build_sessions(folder, room / "sessions"), STORED).strip()


def test_accepted(folder, room):
    return run(build_sessions(folder, room / "accepted"), STORED).strip()


def test_notes(folder, room):
    return run(session_notes.build(folder, room / "notes"), *NOTES_EXAMPLE).strip()


def test_policies(folder, room):
    return run(build_sessions(folder, room / "policies")).strip()


def test_statuses(folder):
    return run(sys.executable, "-m", "tests.library.sessions", folder, cwd=TOP).strip()


def under_valgrind(folder, room):
    before = ["valgrind", "--error-exitcode=9", "--leak-check=full"]
    before += ["--errors-for-leak-kinds=all"]
    library = build_in_c(folder, room / "library", "-g")
    names = "sessions", "accepted"
    tests = library, *(build_sessions(folder, room / name, "-g") for name in names)
    outputs = [run(*before, test_of, STORED, STEP) for test_of in tests]
    notes = session_notes.build(folder, room / "notes", "-g")
    outputs.append(run(*before, notes, *NOTES_EXAMPLE, STEP))
    outputs.append(run(*before, build_sessions(folder, room / "policies", "-g"), STEP))
    return "".join(outputs).strip()


def under_asan(folder, room):
    flags = ["-g", "-fsanitize=address,undefined"]
    try:
        library = build_in_c(folder, room / "library", *flags)
        names = "sessions", "accepted"
        tests = library, *(build_sessions(folder, room / name, *flags) for name in names)
        notes = session_notes.build(folder, room / "notes", *flags)
        policies = build_sessions(folder, room / "policies", *flags)
    except Fault as fault:
        text = f"{fault}\nthe C compiler wants its runtime libraries of {flags[1]} here"
        raise Fault(text) from None
    outputs = [run(test_of, STORED, STEP) for test_of in tests]
    return "".join([*outputs, run(notes, *NOTES_EXAMPLE, STEP), run(policies, STEP)]).strip()


def elsewhere(folder, room):
    """The tests and the callers in C, for the architecture of `CC`. Scripts are answered there as
    by the program here."""
    names = "sessions", "accepted"
    tests = [build_in_c(folder, room / "library"),
             *(build_sessions(folder, room / name) for name in names)]
    outputs = [run(*RUNNER, test_of, STORED, STEP) for test_of in tests]
    notes = session_notes.build(folder, room / "notes")
    outputs.append(run(*RUNNER, notes, *NOTES_EXAMPLE, STEP))
    outputs.append(run(*RUNNER, build_sessions(folder, room / "policies"), STEP))
    for caller, flags in (("C", c_flags(folder)), ("C by the shared object", shared_flags(folder))):
        outputs.append(expect_c_rolls(room, caller, flags) + "\n")
    program = programs.build(folder, room)
    outputs.append(programs.test(program, stored_scripts(), STEP // 6) + "\n")
    outputs.append(words.test(program))
    return "".join(outputs).strip()


CHECKERS = {"valgrind": under_valgrind, "asan": under_asan, "elsewhere": elsewhere}


def test_static_buffer(folder, room):
    """The threads see a library that keeps a buffer between its calls."""
    flags, more = ["-Wl,--wrap=keyset_answer"], ["static_buffer.c"]
    program = build_in_c(folder, room / "static_buffer", *flags, more=more)
    ran = subprocess.run([program, STORED, "0"], capture_output=True, text=True)
    if ran.returncode != 1 or not ran.stderr.endswith(": not as expected: the answer\n"):
        raise Fault(f"a library with a static buffer isn't seen: {ran}")
    return "a library with a static buffer fails in threads"


def expect_rolls(caller, command, **how):
    """A caller that plays an example line by line prints what the program prints for the whole. It
    drops the calls that are refused, so a broken chain may have other positions."""
    examples = by_python.EXAMPLES[::EVERY]
    for path in examples:
        script = path.read_bytes()
        played = run(*command, input=script, **how)
        if played.partition(" at=")[0] != by_python.as_program(script)[1].partition(" at=")[0]:
            raise Fault(f"{caller} doesn't answer {path.name} as the program")
    return f"the caller in {caller} answers {len(examples)} examples as the program"


def expect_c_rolls(room, caller, flags):
    run(CC, *STRICT, *C99, "-o", room / "roll", LIBRARY / "c" / "roll.c", *flags)
    return expect_rolls(caller, [*RUNNER, room / "roll"])


def test_c_caller(folder, room):
    return expect_c_rolls(room, "C", c_flags(folder))


def test_c_caller_by_shared_object(folder, room):
    return expect_c_rolls(room, "C over the shared object", shared_flags(folder))


def shared_flags(folder):
    """The flags that `pkg-config` has for the shared object, and where a program finds that."""
    variables = {**os.environ, "PKG_CONFIG_PATH": str(folder / "lib" / "pkgconfig")}
    flags = run("pkg-config", "--cflags", "--libs", "keyset", env=variables)
    return [*flags.split(), f"-Wl,-rpath,{folder}/lib"]


def test_rust_caller(folder, room):
    rust.build_examples(folder, room)
    return expect_rolls("Rust", [room / "rust" / "debug" / "examples" / "roll"])


def test_python_caller(folder):
    variables = {**os.environ, "KEYSET_LIBRARY": str(folder / "lib" / "libkeyset.so")}
    for path in sorted((LIBRARY / "python").glob("test_*.py")):
        run(sys.executable, "-B", path, env=variables)
    command = [sys.executable, "-B", LIBRARY / "python" / "roll.py"]
    return expect_rolls("Python", command, env=variables)


def test_program_in_c(program):
    return programs.test(program, stored_scripts())


def test_install(folder):
    return install.test(folder)


# The tests that load the library into this Python, all others that are short, and the two that take
# the longest. Each gives a line.
IN_PYTHON = (
    test_statuses, test_python_caller, session_notes.test_in_python, *by_python.TESTS,
)
TESTS = (
    test_static_buffer, test_accepted, test_notes, test_policies, test_c_caller,
    test_c_caller_by_shared_object, test_program_in_c, words.test, rust.test_stored,
    test_rust_caller, rust.test_project, rust.test_package, rust.test_build,
    session_notes.test_callers, *IN_PYTHON, test_install,
)
LONGEST = test_in_c, test_sessions
# What stands before the lines of some tests. Before those of the others stands `library`.
NAMES = {
    test_statuses: "sessions", test_sessions: "sessions", test_install: "install",
    by_python.test_in_python: "sessions", by_python.test_status_program: "sessions",
    by_python.test_long: "long",
}


def line_of(test, value_of):
    """The line of a test, which takes what its parameters name."""
    said = test(**{name: value_of(name) for name in signature(test).parameters})
    return f"{NAMES.get(test, 'library')}: {said}"


def in_python(folder, _):
    """The tests in this Python, whose architecture the library is for."""
    given = {"folder": folder, "keyset": by_python.python_module(folder),
             "questions": session_notes.questions_of_operators()}
    return "\n".join(line_of(test, given.__getitem__) for test in IN_PYTHON)


def main():
    folder, which = Path(sys.argv[1]).resolve(), sys.argv[2]
    with tempfile.TemporaryDirectory() as room:
        try:
            print({**CHECKERS, "python": in_python}[which](folder, Path(room)))
        except Fault as fault:
            print(f"library: {fault}")
            return 1
    return 0


if __name__ == "__main__":
    sys.exit(main())
