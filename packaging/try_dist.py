#!/usr/bin/env python3
"""Installs each artefact of a release in a bare Debian, by its own tool, and uses it there.

    packaging/try_dist.py FOLDER [--room FOLDER] [--only WORD]

FOLDER is what `make dist` has made. It wants root, debootstrap and a mirror of Debian, and for ARM
what qemu-user-static has the kernel do with its programs. It prints a row for each artefact: the
tool, the architecture, what came of it, and the seconds. The room may be kept, so that a second run
takes the same bare Debians, with the packages that a tool needs. In each the sums of the release
are right, and what is installed has the bytes that PROOF names.

Other rows are of mishaps: a release that is damaged, or whose PROOF names other sums, is seen; a
full disk and a lack of Python are named; and an older release is replaced.
"""

import argparse
import os
import shlex
import shutil
import subprocess
import sys
import tempfile
import time
from contextlib import contextmanager
from dataclasses import dataclass
from pathlib import Path

sys.dont_write_bytecode = True

from artefact import AARCH64, X86_64, Fault, run, version
from layout import TOP, shared

SUITE = "bookworm"
MIRROR = os.environ.get("MIRROR", "http://deb.debian.org/debian")
# How the kernel runs programs of ARM, if it does.
QEMU = Path("/proc/sys/fs/binfmt_misc/qemu-aarch64")
EXAMPLE = "algorithm-roll"
BEFORE = """
set -eu
(cd /dist && sha256sum --check --quiet SHA256SUMS)
# Whether PROOF names each of these files with its sum.
proved() {
    for file; do
        sum=$(sha256sum "$file") || return 1
        row="  ${sum%% *}  @MACHINE@ ${file##*/}"
        grep -qxF -e "$row" -e "$row, Debian" /dist/PROOF || return 1
    done
}
refused() { if "$@"; then echo "it isn't refused: $*"; exit 1; fi; }
"""
# A session by the command: a zone, its first keys, and a call that is refused.
BY_COMMAND = f"""
cd "$(mktemp -d)"
cp @EXAMPLES@/{EXAMPLE}.script example.com.script
test "$(vaqsider --version)" = 'vaqsider @VERSION@'
vaqsider status example.com.script
vaqsider call example.com.script 'add-zsk Z9 - 13 9 0 yes'
refused vaqsider call example.com.script 'add-zsk Z9 - 13 9 0 yes'
grep -q Z9 example.com.script
"""
# The first example of README, and one of each word: the answers are those that are stored.
BY_PROGRAM = f"""
test "$(keyset --version)" = 'keyset @VERSION@'
keyset --help
keyset <@EXAMPLES@/{EXAMPLE}.script | cmp - @EXAMPLES@/{EXAMPLE}.answers
for program in 'keyset status' keyset_status; do
    $program <@EXAMPLES@/algorithm-roll.script | cmp - @EXAMPLES@/algorithm-roll.json
done
for program in 'keyset notes' keyset_notes; do
    $program <@EXAMPLES@/lowered-ttl.notes | cmp - @EXAMPLES@/lowered-ttl.reports
done
"""
IN_PYTHON = f"""
import keyset, keyset.library
with open("/examples/{EXAMPLE}.script", "rb") as script:
    answers = keyset.answer(script.read())
with open("/examples/{EXAMPLE}.answers") as stored:
    assert answers == stored.read()
keys = keyset.KeySet("example.com")
keys.call("add-ksk K1 - 13 2 0 yes")
assert keys.script == "zone example.com\\nadd-ksk K1 - 13 2 0 yes\\n"
assert keyset.library.library() is not None
assert keyset.__version__ == "@VERSION@"
"""
IN_C = r"""
#include <keyset.h>
#include <stdio.h>
#include <string.h>

int main(void)
{
    const char *zone = "zone example.com", *line = "add-ksk K1 - 13 2 0 yes";
    struct keyset_session session = {0};
    uint8_t release[64];
    uint32_t opened = keyset_open((const uint8_t *)zone, strlen(zone), &session);
    uint32_t made = keyset_accept(&session, (const uint8_t *)line, strlen(line));
    printf("%u %u %u\n", opened, made, (unsigned)keyset_calls(&session));
    keyset_close(&session);
    struct keyset_answered named = keyset_version_text(release, sizeof release);
    int is_named = named.length == strlen("@VERSION@");
    int is_this = is_named && !memcmp(release, "@VERSION@", named.length);
    return !is_this || keyset_version() != KEYSET_VERSION;
}
"""


@dataclass(frozen=True)
class Trial:
    """An artefact, what its root needs before, and what is done there as root, by sh."""

    artefact: str
    tool: str
    packages: "tuple[str, ...]"
    script: str

    def on(self, architecture):
        """This trial on an architecture."""
        names = {"@MACHINE@": architecture.machine, "@DEBIAN@": architecture.debian,
                 "@FOLDER@": architecture.folder, "@SHARED@": shared(), "@VERSION@": version()}
        artefact, script = self.artefact, BEFORE + self.script
        for name, text in names.items():
            artefact, script = artefact.replace(name, text), script.replace(name, text)
        return Trial(artefact, self.tool, self.packages, script)


def using(text, examples):
    """What is done with the examples of a folder."""
    return text.replace("@EXAMPLES@", examples)


# The unit of ticks is there, and its user, who can own a folder of zones.
OF_TICKS = f"""
unit=/usr/lib/systemd/system/vaqsider@.service
user=$(sed -n 's/^User=//p' "$unit")
install -d -o "$user" -g "$user" /var/lib/vaqsider
install -o "$user" @EXAMPLES@/{EXAMPLE}.script /var/lib/vaqsider/example.com.script
"""
INSTALLED = "/usr/local/share/doc/vaqsider/examples"
OF_DEBIAN = "/usr/share/doc/vaqsider/examples"
TARBALL = "vaqsider-*-@MACHINE@-linux.tar.gz"
UNPACKED = f"""
tar -xzf /dist/{TARBALL} -C /srv
/srv/vaqsider-*/install.sh /usr/local
proved /usr/local/bin/keyset /usr/local/lib/@SHARED@ /usr/local/lib/libkeyset.a
"""
TRIALS = (
    Trial(TARBALL, "tar", (), f"""
{UNPACKED}
{using(BY_PROGRAM, INSTALLED)}
refused vaqsider --version
/srv/vaqsider-*/install.sh --uninstall /usr/local
test ! -e /usr/local/bin/keyset
test ! -e /usr/local/share/vaqsider
"""),
    Trial(TARBALL, "tar, and python3", ("python3",), f"""
{UNPACKED}
{using(BY_PROGRAM + BY_COMMAND, INSTALLED)}
"""),
    Trial("*_@DEBIAN@.deb", "dpkg", ("python3",), f"""
dpkg -i /dist/libkeyset[0-9]*_@DEBIAN@.deb /dist/vaqsider_*_@DEBIAN@.deb
proved /usr/bin/keyset /usr/lib/@FOLDER@/@SHARED@
{using(BY_PROGRAM + BY_COMMAND, OF_DEBIAN)}
{using(OF_TICKS, OF_DEBIAN)}
dpkg -P vaqsider $(dpkg-query -W -f '${{Package}} ' 'libkeyset*')
test ! -e /usr/bin/keyset
test ! -e "$unit"
test "$(stat -c %U /var/lib/vaqsider/example.com.script)" = vaqsider
"""),
    Trial("libkeyset-dev_*_@DEBIAN@.deb", "dpkg, and gcc", ("gcc", "libc6-dev", "pkg-config"), f"""
dpkg -i /dist/libkeyset[0-9]*_@DEBIAN@.deb /dist/libkeyset-dev_*_@DEBIAN@.deb
proved /usr/lib/@FOLDER@/@SHARED@ /usr/lib/@FOLDER@/libkeyset.a
cd /usr/share/doc/libkeyset-dev
cc -o /srv/roll library/c/roll.c $(pkg-config --cflags --libs keyset)
/srv/roll <examples/{EXAMPLE}.script | cmp - examples/{EXAMPLE}.answers
cat >/srv/session.c <<'END'
{IN_C}
END
test "$(pkg-config --modversion keyset)" = '@VERSION@'
cc -o /srv/session /srv/session.c $(pkg-config --cflags --libs keyset)
test "$(/srv/session)" = '0 0 1'
"""),
    Trial("vaqsider-*-manylinux2014_@MACHINE@.whl", "pip", ("python3-venv",), f"""
python3 -m venv /srv/venv
/srv/venv/bin/pip install --no-index /dist/vaqsider-*-manylinux2014_@MACHINE@.whl
proved /srv/venv/lib/python3*/site-packages/keyset/@SHARED@
PATH=/srv/venv/bin:$PATH
python3 -c {shlex.quote(IN_PYTHON)}
{using(BY_COMMAND, "/examples")}
"""),
    Trial("vaqsider-*.tar.gz", "pip, with the library of dpkg",
          ("python3-venv", "python3-wheel", "python3-setuptools"), f"""
dpkg -i /dist/libkeyset[0-9]*_@DEBIAN@.deb
python3 -m venv --system-site-packages /srv/venv
version=$(basename /dist/vaqsider-*-source.tar.gz -source.tar.gz)
/srv/venv/bin/pip install --no-index --no-build-isolation /dist/$version.tar.gz
PATH=/srv/venv/bin:$PATH
python3 -c {shlex.quote(IN_PYTHON)}
{using(BY_COMMAND, "/examples")}
"""),
    Trial("keyset-*.crate", "cargo", ("cargo",), f"""
tar -xzf /dist/keyset-*.crate -C /srv
cd /srv/keyset-*/
proved lib/@MACHINE@-unknown-linux-gnu/libkeyset.a
cargo test --offline --quiet
cargo run --offline --quiet --example roll </examples/{EXAMPLE}.script |
    cmp - /examples/{EXAMPLE}.answers
"""),
    Trial("keyset-go-*.tar.gz", "go", ("golang-go", "gcc", "libc6-dev"), f"""
tar -xzf /dist/keyset-go-*.tar.gz -C /srv
cd /srv/keyset-go-*/
proved lib/@MACHINE@-unknown-linux-gnu/libkeyset.a
go vet ./...
go test ./...
case @MACHINE@ in x86_64) go test -race ./... ;; esac
go run ./examples/roll </examples/{EXAMPLE}.script | cmp - /examples/{EXAMPLE}.answers
"""),
)

# What is there, and what has to be seen, said or replaced.
MISHAPS = (
    Trial("SHA256SUMS", "tar, of a damaged file", (), f"""
printf x | dd of="$(echo /dist/{TARBALL})" bs=1 seek=1000 conv=notrunc status=none
cd /dist
refused sha256sum --check --quiet SHA256SUMS
"""),
    Trial(TARBALL, "tar, of a file that is cut off", (), f"""
head -c -100000 /dist/{TARBALL} >/srv/cut.tar.gz
refused tar -xzf /srv/cut.tar.gz -C /srv
refused /srv/vaqsider-*/install.sh /usr/local
test ! -e /usr/local/bin/keyset
"""),
    Trial("PROOF", "tar, with other sums", (), f"""
sed -i 's/^  [0-9a-f]\\{{4\\}}/  dead/' /dist/PROOF
tar -xzf /dist/{TARBALL} -C /srv
/srv/vaqsider-*/install.sh /usr/local
for file in bin/keyset lib/@SHARED@ lib/libkeyset.a; do refused proved /usr/local/$file; done
refused proved /usr/local/bin/none
"""),
    Trial(TARBALL, "tar, on a full disk", (), f"""
tar -xzf /dist/{TARBALL} -C /srv
mount -t tmpfs -o size=1m tmpfs /usr/local
trap 'umount /usr/local' EXIT
refused /srv/vaqsider-*/install.sh /usr/local 2>/srv/said
grep 'No space left' /srv/said
test -z "$(find /usr/local -name '*.new')"
/srv/vaqsider-*/install.sh --uninstall /usr/local
test -z "$(ls -A /usr/local)"
"""),
    Trial("vaqsider_*_@DEBIAN@.deb", "dpkg, without python3", (), """
refused dpkg -i /dist/libkeyset[0-9]*_@DEBIAN@.deb /dist/vaqsider_*_@DEBIAN@.deb
test "$(dpkg-query -W -f '${db:Status-Status}' vaqsider)" = unpacked
"""),
    Trial("vaqsider_*_@DEBIAN@.deb", "dpkg, over an older release", ("python3",), f"""
dpkg-deb -R /dist/libkeyset[0-9]*_@DEBIAN@.deb /srv/library
sed -i 's/^Package: .*/Package: libkeyset2/; s/^Version: .*/Version: 1.0.0-1/' \
    /srv/library/DEBIAN/control
rm -r /srv/library/usr/share /srv/library/DEBIAN/symbols /srv/library/DEBIAN/shlibs
mv /srv/library/usr/lib/@FOLDER@/@SHARED@ /srv/library/usr/lib/@FOLDER@/libkeyset.so.2
dpkg-deb -R /dist/vaqsider_*_@DEBIAN@.deb /srv/older
sed -i 's/^Version: .*/Version: 1.0.0-1/; s/libkeyset[0-9]* ([^)]*)/libkeyset2/' \
    /srv/older/DEBIAN/control
touch /srv/older/usr/share/vaqsider/older.py
for package in library older; do dpkg-deb -b /srv/$package /srv/$package.deb; done
dpkg -i /srv/library.deb /srv/older.deb
test -e /usr/share/vaqsider/older.py
dpkg -i /dist/libkeyset[0-9]*_@DEBIAN@.deb /dist/vaqsider_*_@DEBIAN@.deb
test ! -e /usr/share/vaqsider/older.py
test -e /usr/lib/@FOLDER@/libkeyset.so.2
proved /usr/bin/keyset /usr/lib/@FOLDER@/@SHARED@
{using(BY_PROGRAM + BY_COMMAND, OF_DEBIAN)}
"""),
)


def bare(room, architecture):
    """A bare Debian for an architecture, made once."""
    root = room / f"bare-{architecture.debian}"
    if not root.is_dir():
        making = room / f"making-{root.name}"
        shutil.rmtree(making, ignore_errors=True)
        run("debootstrap", f"--arch={architecture.debian}", "--variant=minbase", SUITE, making,
            MIRROR)
        shutil.copy("/etc/resolv.conf", making / "etc" / "resolv.conf")
        # (Nothing there has to outlive a crash.)
        (making / "etc/dpkg/dpkg.cfg.d/unsafe-io").write_text("force-unsafe-io\n")
        making.rename(root)
    return root


def with_packages(room, architecture, packages):
    """A bare Debian with these packages beside its own, made once."""
    root = room / "-".join(("bare", architecture.debian, *packages))
    if packages and not root.is_dir():
        making = room / f"making-{root.name}"
        shutil.rmtree(making, ignore_errors=True)
        run("cp", "-a", bare(room, architecture), making)
        inside(making, "apt-get update -qq && DEBIAN_FRONTEND=noninteractive apt-get install "
                       f"-qq -y --no-install-recommends {' '.join(packages)} && apt-get clean")
        making.rename(root)
    return root if packages else bare(room, architecture)


@contextmanager
def root_of(trial, architecture, room, dist):
    """A copy of the bare Debian with the packages of a trial, the artefacts and the examples."""
    root = Path(tempfile.mkdtemp(dir=room, prefix="root-"))
    try:
        run("cp", "-a", f"{with_packages(room, architecture, trial.packages)}/.", root)
        shutil.copytree(dist, root / "dist")
        shutil.copytree(TOP / "examples", root / "examples")
        # (rustc looks for itself there.)
        run("mount", "-t", "proc", "proc", root / "proc")
        yield root
    finally:
        subprocess.run(["umount", root / "proc"], stderr=subprocess.DEVNULL, check=False)
        if not os.path.ismount(root / "proc"):
            shutil.rmtree(root, ignore_errors=True)


def inside(root, script):
    """Runs a script in a root, and gives what it prints. `Fault` if a line of it fails."""
    environment = {"PATH": "/usr/local/sbin:/usr/local/bin:/usr/sbin:/usr/bin:/sbin:/bin",
                   "HOME": "/srv", "LC_ALL": "C.UTF-8"}
    words = ["chroot", root, "sh", "-c", f"set -eu\n{script}"]
    done = subprocess.run(words, env=environment, stdout=subprocess.PIPE,
                          stderr=subprocess.STDOUT, text=True, check=False)
    if done.returncode:
        raise Fault(f"ended with {done.returncode}: {done.stdout[-2000:]}")
    return done.stdout


def tried(trial, architecture, room, dist):
    """Does a trial. Gives its row, and whether it went well."""
    began = time.monotonic()
    row = f"| {trial.artefact} | {trial.tool} | {architecture.debian} |"
    if not any(dist.glob(trial.artefact)):
        return f"{row} isn't there | |", False
    try:
        with root_of(trial, architecture, room, dist) as root:
            inside(root, trial.script)
    except Fault as fault:
        return f"{row} {fault} | |", False
    return f"{row} as it should | {time.monotonic() - began:.0f} |", True


def rows(given, room):
    """The rows of the table, each with whether its trial went well."""
    for architecture in (X86_64, AARCH64):
        if architecture is AARCH64 and not QEMU.exists():
            yield f"| all | | {architecture.debian} | the kernel has no {QEMU.name} | |", False
            continue
        trials = TRIALS + (MISHAPS if architecture is X86_64 else ())
        for trial in (trial.on(architecture) for trial in trials):
            if given.only in f"{trial.artefact} {trial.tool} {architecture.debian}":
                yield tried(trial, architecture, room, given.dist.resolve())


def main():
    parser = argparse.ArgumentParser(description=__doc__.partition("\n")[0])
    parser.add_argument("dist", metavar="FOLDER", type=Path)
    parser.add_argument("--room", metavar="FOLDER", type=Path)
    parser.add_argument("--only", metavar="WORD", default="")
    given = parser.parse_args()
    failed = 0
    with tempfile.TemporaryDirectory() as own:
        room = given.room or Path(own)
        room.mkdir(parents=True, exist_ok=True)
        print("| Artefact | By | On | | Seconds |\n|---|---|---|---|---|", flush=True)
        for row, is_well in rows(given, room):
            print(row, flush=True)
            failed += not is_well
    print(f"{failed} failed")
    return min(failed, 1)


if __name__ == "__main__":
    sys.exit(main())
