"""Installs that meet something else than an empty folder: others at the same time, also of another
release and under other masks, a full disk, a folder in the place of a file, an older release, files
of others. What `make install` runs and the script of a tarball have to do the same. The script
installs nothing of a tarball that is damaged, and says that Python is missing."""

import hashlib
import os
import resource
import shutil
import subprocess
import sys

from tests.gate.tools import TOP, Fault, run

INSTALL = TOP / "packaging" / "install.py"
LIST = "share/vaqsider/installed"
SUMS = "SHA256SUMS"
# Masks that hide new files from others, or let them write.
MASKS = (0o077, 0o022, 0)
# No file may be longer than so many bytes, as if the disk were full then. The list is shorter.
FULL = 100_000
# What the release before had, and this one lacks, or has as a link.
OLDER = ("share/vaqsider/older.py", "bin/keyset_status")
OLDER_LIBRARY = "lib/libkeyset.so.2"
# What another release has under another name.
MOVED = "share/vaqsider/vaqsider/cli.py"
# What the script of a tarball needs.
COMMANDS = ("basename", "cat", "chmod", "cp", "dirname", "grep", "id", "mkdir", "mktemp", "mv",
            "rm", "rmdir", "sed", "sh", "sha256sum", "sort", "wc")
# Files of others, among ours.
OTHERS = (
    "bin/other",
    "share/vaqsider/keyset/other.py",
    "share/vaqsider/keyset/__pycache__/other.cpython-311.pyc",
)


class Installer:
    """How to install and to uninstall by one of the two."""

    def __init__(self, name, install, uninstall):
        self.name, self.words, self.undo = name, install, uninstall

    def start(self, prefix, words=None, **how):
        """Begins it, by default under a mask that hides new files from others."""
        words = [str(word) for word in [*(words or self.words), prefix]]
        pipes = {"stdout": subprocess.PIPE, "stderr": subprocess.PIPE, "text": True}
        return subprocess.Popen(words, **{"umask": MASKS[0], **pipes, **how})

    def ends(self, process):
        """Its status, and what it says on standard error."""
        said = process.communicate()[1]
        return process.returncode, said

    def install(self, prefix, **how):
        self.expect_done(self.ends(self.start(prefix, **how)))

    def uninstall(self, prefix):
        self.expect_done(self.ends(self.start(prefix, self.undo)))

    def expect_done(self, end):
        if end[0]:
            raise Fault(f"{self.name} ends with {end}")


def installers(library, script):
    """Both of them. The script is that of an unpacked tarball with the same files."""
    python = [sys.executable, "-B", INSTALL]
    options = ["--library", library]
    return (
        Installer("install.py", [*python, "install", *options], [*python, "uninstall"]),
        Installer("install.sh", [script], [script, "--uninstall"]),
    )


def expect(is_so, fault):
    if not is_so:
        raise Fault(fault)


def drafts(prefix):
    """What was to come into the place of a file, and has not."""
    return [str(path) for path in prefix.rglob("*.new")]


def together(both, prefix, tree, whole):
    """Several install at once, each under another mask: each does, and all is whole."""
    begun = [(one, one.start(prefix, umask=mask)) for one in both for mask in MASKS]
    for one, process in begun:
        one.expect_done(one.ends(process))
    expect(tree(prefix) == whole, "installs side by side leave other files")


def unpacked(script, folder):
    """A copy of the unpacked tarball of a script. Gives the script of the copy."""
    shutil.copytree(script.parent, folder, symlinks=True)
    return folder / script.name


def sum_up(folder):
    """Writes the sums of an unpacked tarball anew."""
    names = [line.split("  ", 1)[1] for line in (folder / SUMS).read_text().splitlines()]
    digests = ((hashlib.sha256((folder / name).read_bytes()).hexdigest(), name) for name in names)
    (folder / SUMS).write_text("".join(f"{digest}  {name}\n" for digest, name in digests))


def two_releases_together(both, prefix, tree, whole, script):
    """Another release is installed at the same time: what is left is the whole of one of them."""
    other = unpacked(script, prefix.with_name("other release"))
    (other.parent / "root" / "bin" / "keyset").write_bytes(b"another")
    os.rename(other.parent / "root" / MOVED, other.parent / "root" / OLDER[0])
    for name in (SUMS, f"root/{LIST}"):
        text = (other.parent / name).read_text()
        (other.parent / name).write_text(text.replace(MOVED, OLDER[0]))
    sum_up(other.parent)
    another = Installer("install.sh of another release", [other], [other, "--uninstall"])
    another.install(prefix.with_name("other alone"))
    wholes = whole, tree(prefix.with_name("other alone"))
    begun = [(one, one.start(prefix)) for one in (another, *both, another)]
    for one, process in begun:
        one.expect_done(one.ends(process))
    expect(tree(prefix) in wholes, "two releases side by side leave a mixture")


def damages(folder):
    """Damages an unpacked tarball in one way after another, each time beginning with a whole one.
    Gives what was done."""
    of_program = folder / "root" / "bin" / "keyset"
    whole, sums = of_program.read_bytes(), (folder / SUMS).read_bytes()
    for what, content in (("cut off", whole[:-1]), ("changed", b"x" + whole[1:]), ("empty", b"")):
        of_program.write_bytes(content)
        yield what
    of_program.write_bytes(whole)
    for name in ("root/bin/keyset_status", f"root/{LIST}", SUMS):
        kept = (folder / name).rename(folder.with_name("kept"))
        yield f"without {name}"
        kept.rename(folder / name)
    (folder / SUMS).write_bytes(sums[: sums.index(b"\n", len(sums) // 2) + 1])
    yield "with half of its sums"
    (folder / SUMS).write_bytes(sums)


def from_a_damaged_tarball(script, prefix):
    """Nothing is installed of it, and the script says so. Gives how many were tried."""
    copy, count = unpacked(script, prefix.with_name("damaged release")), 0
    one = Installer(script.name, [copy], [copy, "--uninstall"])
    for what in damages(copy.parent):
        status, said = one.ends(one.start(prefix))
        expect(status == 1 and "is damaged" in said, f"a tarball {what} is installed: {said}")
        expect(not prefix.exists(), f"a tarball {what} leaves files")
        count += 1
    one.install(prefix.with_name("mended"))
    return count


def without_python(script, prefix):
    """The script needs no Python, and says that the command does."""
    folder = prefix.with_name("commands")
    folder.mkdir()
    for name in COMMANDS:
        (folder / name).symlink_to(shutil.which(name))
    output = run(script, prefix, env={"PATH": str(folder)})
    expect("wants python3" in output, f"install.sh says nothing of a lack of Python: {output}")


def on_a_full_disk(one, prefix, tree, whole):
    """It says so, and leaves each file as it was or as it comes. What is there can be removed."""
    limit = {"preexec_fn": lambda: resource.setrlimit(resource.RLIMIT_FSIZE, (FULL, FULL))}
    for old in (None, b"old"):
        if old:
            one.install(prefix)
            (prefix / "bin" / "keyset").write_bytes(old)
        status, said = one.ends(one.start(prefix, **limit))
        expect(status and said, f"{one.name} says nothing of a full disk: {status}")
        expect(not drafts(prefix), f"{one.name} leaves {drafts(prefix)} on a full disk")
        found = {name: content for name, (_, content) in tree(prefix).items() if name != LIST}
        broken = [name for name, content in found.items() if content not in (whole[name][1], old)]
        expect(not broken, f"{one.name} leaves {broken} broken on a full disk")
        one.uninstall(prefix)
        expect(list(tree(prefix)) == [], f"{one.name} can't be undone after a full disk")


def over_a_folder(one, prefix, tree):
    """A folder in the place of a file stays, and the install says that it isn't done."""
    other = prefix / "bin" / "keyset" / "of another"
    other.parent.mkdir(parents=True)
    other.write_text("")
    status, said = one.ends(one.start(prefix))
    expect(status and said, f"{one.name} says nothing of a folder in the place of a file")
    expect(not drafts(prefix), f"{one.name} leaves {drafts(prefix)} beside a folder")
    one.uninstall(prefix)
    left = list(tree(prefix))
    wanted = ["bin", "bin/keyset", "bin/keyset/of another"]
    expect(left == wanted, f"{one.name} leaves {left} round a folder of another")


def over_an_older_one(one, prefix, tree, whole):
    """Files that this release lacks go, a link takes the place of a program, and the library of an
    older interface stays. Then only files of others are left."""
    one.install(prefix)
    (prefix / "bin" / "keyset_status").unlink()
    for name in (*OLDER, OLDER_LIBRARY):
        (prefix / name).write_text("")
    with open(prefix / LIST, "a") as names:
        names.writelines(f"{name}\n" for name in (OLDER[0], OLDER_LIBRARY))
    one.install(prefix)
    found = tree(prefix)
    expect(OLDER_LIBRARY in found, f"{one.name} removes the library of an older interface")
    rest = {name: of for name, of in found.items() if name not in (LIST, OLDER_LIBRARY)}
    wanted = {name: of for name, of in whole.items() if name != LIST}
    differing = sorted(name for name in rest | wanted if rest.get(name) != wanted.get(name))
    expect(not differing, f"{one.name} over an older release leaves other files: {differing}")
    for name in OTHERS:
        (prefix / name).parent.mkdir(exist_ok=True)
        (prefix / name).write_text("")
    one.uninstall(prefix)
    left = {name for name, (_, content) in tree(prefix).items() if content is not None}
    expect(left == set(OTHERS), f"{one.name} leaves {sorted(left)}, and others have {OTHERS}")


def test(room, library, script, tree, whole):
    """Has each mishap befall both. Gives a line."""
    both = installers(library, script)
    together(both, room / "to gether", tree, whole)
    two_releases_together(both, room / "two", tree, whole, script)
    damaged = from_a_damaged_tarball(script, room / "of damaged")
    without_python(script, room / "no python")
    for one in both:
        on_a_full_disk(one, room / f"full {one.name}", tree, whole)
        over_a_folder(one, room / f"folder {one.name}", tree)
        over_an_older_one(one, room / f"older {one.name}", tree, whole)
    return (
        f"{len(both) * len(MASKS)} installs at once, {damaged} damaged tarballs, and {len(both)}"
        " installers with 3 mishaps each"
    )
