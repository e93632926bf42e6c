"""Installs the program, the library and the command into a new folder, and uses them there.

    python3 -m tests.library.install FOLDER    takes the library that `make lib` has left there

A caller in C is built by `pkg-config`, the folder is moved, and the caller is built again. The
program, its links and the command answer from the new place, without the repository. Each file that
names a version names that of the file VERSION. Each manual page has the form that `man` reads. A
second install changes nothing. An install over an older list removes the files that only the old
list has. An install below another folder of libraries is found by `pkg-config` there, one without a
part lacks just its files, and a shared object of an older interface stays. After `uninstall` only
the files of others are left. Mishaps are those of `tests/library/mishaps.py`.
"""

import json
import os
import re
import sys
import tempfile
from pathlib import Path

from artefact import X86_64, Built
from tarballs import pack_built
from tests.gate.tools import (
    CRATES, NOTES_EXAMPLE, STATUS_EXAMPLE, STRICT, TOP, Fault, run, status_of,
)
from tests.library import mishaps

INSTALL = TOP / "packaging" / "install.py"
VERSION = (TOP / "VERSION").read_text().strip()
EXAMPLE = TOP / "examples" / "ksk-roll.script"
ANSWERS = EXAMPLE.with_suffix(".answers").read_text()
PAGES = ("keyset", "keyset_notes", "keyset_status", "vaqsider")
# The links to the program, with what they read and write.
LINKS = {"keyset_notes": NOTES_EXAMPLE, "keyset_status": STATUS_EXAMPLE}
LIST = "share/vaqsider/installed"

# The commands of roff that a page may have, and what a backslash may begin in its text.
COMMANDS = re.compile(r"\.(TH|SH|SS|PP|TP|IP|RS|RE|nf|fi)( .*)?")
ESCAPE = re.compile(r"\\(fB|fR|e|-|&|\((aq|ga|ha|ti|bu)|\[u[0-9A-F]{4,5}\])")


def packaging(word, prefix, *more):
    """Installs or uninstalls under a mask that hides new files from others: what is installed is
    for all the same."""
    mask = os.umask(0o077)
    try:
        return run(sys.executable, "-B", INSTALL, word, prefix, *more)
    finally:
        os.umask(mask)


def tree(folder):
    """What is below a folder: each file with its mode and its bytes, each link with its target."""
    found = {}
    for path in sorted(folder.rglob("*")):
        name = str(path.relative_to(folder))
        if path.is_symlink():
            found[name] = "link", os.readlink(path)
        elif path.is_file():
            found[name] = path.stat().st_mode & 0o777, path.read_bytes()
        else:
            found[name] = path.stat().st_mode & 0o777, None
    return found


def expect(is_so, fault):
    if not is_so:
        raise Fault(fault)


def apart(prefix, libraries="lib", **more):
    """An environment in which only `pkg-config` finds what is installed."""
    paths = {"PATH": os.environ["PATH"], "PKG_CONFIG_PATH": f"{prefix}/{libraries}/pkgconfig"}
    return {**paths, "PYTHONDONTWRITEBYTECODE": "1", **more}


def build_in_c(prefix, program, libraries="lib"):
    """A caller of the library, built with what `pkg-config` prints, answers the example."""
    environment = apart(prefix, libraries)
    flags = run("pkg-config", "--cflags", "--libs", "keyset", env=environment).split()
    source = TOP / "library" / "c" / "roll.c"
    run("cc", *STRICT, "-o", program, source, *flags, f"-Wl,-rpath,{prefix}/{libraries}")
    answered = run(program, input=EXAMPLE.read_bytes(), env=environment)
    expect(answered == ANSWERS, f"a caller in C answers something else: {answered}")


def expect_versions(prefix):
    version = run("pkg-config", "--modversion", "keyset", env=apart(prefix)).strip()
    expect(version == VERSION, f"keyset.pc has version {version}")
    for name in ("vaqsider", "keyset"):
        output = run(prefix / "bin" / name, "--version", env=apart(prefix)).strip()
        expect(output == f"{name} {VERSION}", f"{name} says that it is {output}")
    header = (prefix / "include" / "keyset.h").read_text()
    expect(f'#define KEYSET_RELEASE "{VERSION}"' in header, "the header is of another release")
    for name in ("libkeyset.a", "libkeyset.so"):
        named = f"keyset {VERSION}\0".encode()
        expect(named in (prefix / "lib" / name).read_bytes(), f"{name} doesn't name its release")
    for name in PAGES:
        first = (prefix / "share" / "man" / "man1" / f"{name}.1").read_text().split("\n", 1)[0]
        expect(f'"vaqsider {VERSION}"' in first, f"{name}.1 is of another release")


def expect_programs(prefix, room):
    """The program and its links answer what is stored. The command shows a zone with the library if
    there is no program, and with the program if there is no library."""
    for name, (given, wanted) in LINKS.items():
        path = prefix / "bin" / name
        expect(path.is_symlink() and os.readlink(path) == "keyset", f"{name} is no link")
        answered = run(path, input=given.read_bytes())
        expect(answered == wanted.read_text(), f"{name} answers something else")
    answered = run(prefix / "bin" / "keyset", input=EXAMPLE.read_bytes())
    expect(answered == ANSWERS, "keyset answers something else")
    zone = room / "example.com.script"
    zone.write_bytes(EXAMPLE.read_bytes())
    shown = []
    for lacking in ({"KEYSET_PROGRAMS": str(room / "none")}, {"KEYSET_LIBRARY": ""}):
        words = prefix / "bin" / "vaqsider", "status", zone, "--json"
        text = run(*words, env=apart(prefix, **lacking), cwd=room)
        shown.append(json.loads(text)[0]["published"])
    line = ANSWERS.splitlines()[-2]
    wanted = {kind: keys.split(",") for kind, keys in re.findall(r"(\w+)=(\S+)", line)}
    expect(shown == [wanted, wanted], f"the command shows {shown}, and not {wanted}")


def expect_page(path):
    """A page begins with its title and its name, has only the commands and the escapes above, and
    closes each font and each block that it opens."""
    text = path.read_text(encoding="ascii")
    title, name, line, *rest = text.splitlines()
    section = path.suffix[1:]
    expect(title.startswith(f".TH {path.stem.upper()} {section} 2"), f"{path.name}: no title")
    expect(name == ".SH NAME", f"{path.name}: the first section isn't NAME")
    shown = line.replace("\\", "")
    expect(shown.startswith(f"{path.stem} - "), f"{path.name}: NAME doesn't say what it is for")
    opened = {".nf": 0, ".RS": 0}
    for number, line in enumerate(rest, 4):
        where = f"{path.name}:{number}"
        if line.startswith((".", "'")):
            expect(COMMANDS.fullmatch(line), f"{where}: {line} is no command")
            opened[".nf"] += (line == ".nf") - (line == ".fi")
            opened[".RS"] += line.startswith(".RS") - (line == ".RE")
            expect(set(opened.values()) <= {0, 1}, f"{where}: {line} isn't in its place")
        expect("\\" not in ESCAPE.sub("", line), f"{where}: another escape in {line}")
        expect(line.count("\\fB") == line.count("\\fR"), f"{where}: a font is left open")
    expect(not any(opened.values()), f"{path.name}: a block is left open")


def expect_no_places(whole, prefix):
    """No file says where it was installed, and no text says where it was made."""
    for name, (_, content) in whole.items():
        is_text = not name.startswith(("bin/keyset", "lib/libkeyset"))
        for place in (prefix, TOP) if is_text else (prefix,):
            found = isinstance(content, bytes) and str(place).encode() in content
            expect(not found, f"{name} names {place}")


def expect_contents(folder):
    """Each word of a script is on the page of the program, and each word of the command on that of
    the command."""
    text = (folder / "keyset.1").read_text().replace("\\", "")
    for line in (TOP / "tests" / "frozen" / "words.txt").read_text().splitlines():
        word = line.split()[0]
        expect(word in text, f"keyset.1 doesn't have {word}")
    text = (folder / "vaqsider.1").read_text().replace("\\", "")
    table = (TOP / "command" / "vaqsider" / "parsers" / "__init__.py").read_text()
    words = re.findall(r'^    "(\w+)": "\w+",$', table, re.M)
    expect(len(words) > 5, "the words aren't found in the table of their modules")
    for word in words:
        used = f".SS {word}\n.PP\n.RS 4\n.nf\nusage: vaqsider {word} "
        expect(used in text, f"vaqsider.1 doesn't have the options of {word}")


def expect_links(folder):
    """Each link of a page leads to a file that is installed too."""
    pages = list(folder.rglob("*.md"))
    expect(len(pages) > 10, "the pages aren't found")
    for page in pages:
        for target in re.findall(r"\]\(([^)\s#]+)", page.read_text(encoding="utf-8")):
            is_there = "://" in target or (page.parent / target).exists()
            expect(is_there, f"{page.relative_to(folder)} links to {target}, which isn't there")


def expect_functions(page):
    """Each function of the header is on the page of the library, with its declaration."""
    text = page.read_text().replace("\\", "")
    header = (TOP / "library" / "keyset.h").read_text()
    names = re.findall(r"^[a-z].* (keyset_\w+)\(", header, re.M)
    expect(len(names) > 10, "the functions aren't found in keyset.h")
    for name in names:
        expect(re.search(rf"^[a-z].* {name}\(", text, re.M), f"keyset.3 doesn't declare {name}")
        expect(os.path.samefile(page, page.with_name(f"{name}.3")), f"{name} has no manual page")


def expect_other_folder(room, library):
    """Libraries may go to the folder of an architecture: pkg-config finds them there."""
    prefix, libraries = room / "other", "lib/x86_64-linux-gnu"
    packaging("install", prefix, "--library", library, "--libdir", libraries)
    build_in_c(prefix, room / "roll", libraries)
    beside = {prefix / "lib" / name for name in ("systemd", "sysusers.d")}
    expect({*(prefix / "lib").iterdir()} == {prefix / libraries, *beside},
           "libraries are in two places")


def expect_parts(room, library, whole):
    """What each part has, taken together, is the whole; and none has a file of another."""
    parts, of_parts = ("programs", "library", "command"), {}
    for part in parts:
        prefix = room / part
        without = [word for other in parts if other != part for word in ("--without", other)]
        packaging("install", prefix, "--library", library, *without)
        of_parts[part] = {name: file for name, file in tree(prefix).items() if file[1] is not None}
        shared = (LIST, *(name for name in of_parts[part] if name.startswith("share/doc/")))
        for name in shared:
            of_parts[part].pop(name)
    found = {name: file for files in of_parts.values() for name, file in files.items()}
    expect(sum(map(len, of_parts.values())) == len(found), "two parts have the same file")
    lacking = {name for name, file in whole.items() if file[1] is not None} - found.keys()
    others = {name for name in lacking if name != LIST and not name.startswith("share/doc/")}
    expect(not others, f"no part has {sorted(others)}")


def expect_older(prefix, library):
    """An install removes a file that it lacks, and leaves a shared object of an older interface, to
    which programs may be linked. Gives the path of that. A link takes the place of a program that
    had its name."""
    (prefix / "bin/keyset_status").unlink()
    (prefix / "bin/keyset_status").write_text("")
    older, shared = prefix / "share/vaqsider/older.py", prefix / "lib/libkeyset.so.1"
    for path in (older, shared):
        path.write_text("")
    with open(prefix / LIST, "a") as names:
        names.writelines(f"{path.relative_to(prefix)}\n" for path in (older, shared))
    packaging("install", prefix, "--library", library)
    expect(not older.exists(), "an install leaves a file of an older one")
    expect((prefix / "bin/keyset_status").is_symlink(), "an install leaves an older program")
    expect(shared.exists(), "an install removes the library of an older interface")


def expect_tarball(room, library, whole):
    """The tarball of a release installs the same files by `install.sh`, over older ones too, and
    removes them. It has the same bytes when it is made again. Gives the path of the script."""
    folders = [room / "dist" / name for name in ("one", "two")]
    for folder in folders:
        folder.mkdir(parents=True)
        pack_built(folder, Built(X86_64, library, CRATES))
    (first,), (second,) = (list(folder.iterdir()) for folder in folders)
    expect(first.read_bytes() == second.read_bytes(), f"{first.name} has other bytes each time")
    run("tar", "-xzf", first, "-C", room)
    script, prefix = room / first.name.removesuffix(".tar.gz") / "install.sh", room / "by tarball"
    for _ in range(2):
        run(script, prefix)
        expect(tree(prefix) == whole, "install.sh installs other files")
    run(prefix / "bin" / "vaqsider", "--version", env={"PATH": os.environ["PATH"]})
    run(script, "--uninstall", prefix)
    expect(list(tree(prefix)) == [], f"install.sh --uninstall leaves {list(tree(prefix))}")
    return script


def test(library):
    """Tests an install of this library, and of the program that `rt ci` has made. Gives a line."""
    with tempfile.TemporaryDirectory() as room:
        room = Path(room)
        first, moved = room / "first", room / "moved"
        packaging("install", first, "--library", library)
        whole = tree(first)
        packaging("install", first, "--library", library)
        expect(tree(first) == whole, "a second install changes something")
        expect_no_places(whole, first)
        build_in_c(first, room / "roll")
        first.rename(moved)
        expect_used(moved, room)
        modes = {mode for mode, content in whole.values() if content is not None}
        expect(modes - {"link"} == {0o644, 0o755}, f"files have the modes {modes}")
        expect_other_folder(room, library)
        expect_parts(room, library, whole)
        script = expect_tarball(room, library, whole)
        befell = mishaps.test(room, library, script, tree, whole)
        expect(tree(moved) == whole, "the use of what is installed changes it")
        expect_uninstalled(moved, room / "below", library, whole)
    files = sum(content is not None for _, content in whole.values())
    return f"{files} files installed, used, moved, used, and uninstalled; {befell}"


def expect_used(moved, room):
    """What was moved can be used, and its pages are whole."""
    build_in_c(moved, room / "roll")
    expect_versions(moved)
    expect_programs(moved, room)
    pages = moved / "share" / "man"
    for name in PAGES:
        expect_page(pages / "man1" / f"{name}.1")
    expect_page(pages / "man3" / "keyset.3")
    expect_functions(pages / "man3" / "keyset.3")
    expect_contents(pages / "man1")
    expect_links(moved / "share" / "doc" / "vaqsider")


def expect_uninstalled(moved, below, library, whole):
    """An uninstall leaves only what is another's, also below a folder."""
    packaging("install", "/usr", "--destdir", below, "--library", library)
    expect(tree(below / "usr") == whole, "an install below a folder has other files")
    other = moved / "bin" / "other"
    other.write_text("")
    expect_older(moved, library)
    environment = apart(moved)
    del environment["PYTHONDONTWRITEBYTECODE"]
    run(moved / "bin" / "vaqsider", "--version", env=environment)
    expect(any(moved.rglob("*.pyc")), "the command leaves nothing for uninstall to remove")
    packaging("uninstall", moved)
    expect(list(tree(moved)) == ["bin", "bin/other"], f"uninstall leaves {list(tree(moved))}")
    other.unlink()
    packaging("uninstall", "/usr", "--destdir", below)
    expect(list(tree(below)) == [], f"uninstall leaves {list(tree(below))}")


def main():
    if len(sys.argv) != 2:
        sys.exit(__doc__)
    return status_of("install", lambda: test(Path(sys.argv[1]).resolve()))


if __name__ == "__main__":
    sys.exit(main())
