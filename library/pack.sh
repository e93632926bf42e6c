#!/bin/sh
# pack.sh ARCHIVE FOLDER [aarch64]: makes what callers install from the archive that rt wrote. That
# is an archive and a shared object, with the header and a file for pkg-config. Both export what the
# header declares, and need only the C library. For x86-64 the script needs only the tools of the
# toolchain, for ARM also aarch64-linux-gnu-gcc. `readelf -p .keyset` prints the release of an
# archive, of a shared object, and of a program with either.
set -eu
archive=$(realpath "$1") folder=$2 machine=${3-x86_64}
here=$(cd "$(dirname "$0")" && pwd)
kit=$(dirname "$(rt doc)")
tools=$kit/toolchain/bin libraries=$kit/toolchain/lib
interface=$(sed -n 's/^#define KEYSET_VERSION //p' "$here/keyset.h")
release=$(cat "$here/../VERSION")
rm -rf "$folder"
mkdir -p "$folder/include" "$folder/lib/pkgconfig"
cp "$here/keyset.h" "$folder/include/"
cd "$folder/lib"

# What rt's archive needs of the toolchain, and the C library to link with.
case $machine in
x86_64)
    needed="$kit/c/liblibc_c.a $libraries/libgcc.a" libc=$libraries/libc.so.6
    ;;
aarch64)
    compiler=aarch64-linux-gnu-gcc
    $compiler -O2 -fPIC -c -o heap.o "$here/heap.c"
    needed="heap.o $($compiler -print-libgcc-file-name)"
    libc=$($compiler -print-file-name=libc.so.6)
    ;;
*)
    echo "pack.sh: there is no library for $machine" >&2
    exit 2
    ;;
esac

# One object. In it all is local except what the header declares.
"$tools/ld.lld" -r -o keyset.o --whole-archive "$archive" --no-whole-archive $needed
# (its programs are one file, which does what its name says)
ln -s "$tools/clang" llvm-objcopy
declared=$(sed -n 's/^[a-z].* \(keyset_[a-z_]*\)(.*/--keep-global-symbol=\1/p' "$here/keyset.h")
printf 'keyset %s\0' "$release" >release
./llvm-objcopy $declared --add-section .keyset=release keyset.o
"$tools/llvm-ar" rcs libkeyset.a keyset.o
"$tools/ld.lld" -shared --build-id=sha1 -z noexecstack -z now -z defs \
    -soname "libkeyset.so.$interface" -o "libkeyset.so.$interface" keyset.o "$libc"
# (no link: `rt all check` refuses a tree with one)
ln "libkeyset.so.$interface" libkeyset.so
rm -f keyset.o heap.o release llvm-objcopy
sed "s|@VERSION@|$release|; s|@UP@|../..|; s|@LIBRARIES@|lib|" "$here/keyset.pc.in" \
    >pkgconfig/keyset.pc
