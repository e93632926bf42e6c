#!/bin/sh
# Installs what lies in the folder `root` beside this script, or removes it again.
#
#     ./install.sh PREFIX              as ./install.sh /usr/local
#     ./install.sh --uninstall PREFIX
#
# It installs nothing unless all files have the sums of SHA256SUMS, which lies beside it too.
# `share/vaqsider/installed` lists what was installed. Files that an earlier install has left, and
# this one lacks, go; a shared object of an older interface stays, since programs may be linked to
# it.
set -eu
umask 022
export LC_ALL=C

list=share/vaqsider/installed
usage() {
	sed -n 's/^#     //p' "$0" >&2
	exit 2
}

# The lines of a list with files, or with folders, which end with a slash.
files() { grep -v '/$' "$1" || true; }
folders() { grep '/$' "$1" || true; }

# Each file of the list has its sum: one that was cut off, say, isn't installed.
expect_whole() {
	if (cd "$1" && sha256sum -c SHA256SUMS) >"$room/sums" 2>&1 && [ -f "$1/root/$list" ] &&
		! files "$1/root/$list" | sed 's|.*|root/&: OK|' | grep -qvxF -f "$room/sums"; then
		return
	fi
	grep -v ': OK$' "$room/sums" >&2 || true
	echo "$1 is damaged: unpack the tarball once more" >&2
	exit 1
}

# Removes a file, and what Python has compiled of it. A folder in its place isn't ours.
remove_file() {
	[ -d "$1/$2" ] && [ ! -L "$1/$2" ] || rm -f "$1/$2"
	case $2 in
	*.py)
		kept=$1/$(dirname "$2")/__pycache__
		rm -f "$kept/$(basename "$2" .py)".*.pyc
		rmdir "$kept" 2>/dev/null || true
		;;
	esac
}

# Keeps others from installing or uninstalling there meanwhile, if the system has flock.
lock() {
	exec 9<"$1"
	if command -v flock >/dev/null; then flock 9; fi
}

# Files first; then the folders, the deepest first, if nothing else is in them.
remove() {
	[ ! -d "$1" ] || lock "$1"
	[ -f "$1/$list" ] || { echo "$1/$list isn't there: nothing is installed here" >&2; exit 1; }
	cp "$1/$list" "$room/before"
	files "$room/before" >"$room/files"
	while read -r name; do remove_file "$1" "$name"; done <"$room/files"
	folders "$room/before" | sort -r >"$room/folders"
	while read -r name; do rmdir "$1/$name" 2>/dev/null || true; done <"$room/folders"
	echo "uninstalled $(wc -l <"$room/files") files below $1"
}

# Each file comes into its place in one step: whoever uses the old one goes on with it.
put() {
	new=$1/$3.$$.new
	cp -P -p "$2" "$new"
	mv -fT "$new" "$1/$3"
	new=
}

# Writes the list of what is installed, by the rows of these files.
keep() {
	prefix=$1
	shift
	cat "$@" >"$room/rows"
	{ files "$room/rows" | sort -u; folders "$room/rows" | sort -u; } >"$room/list"
	chmod 644 "$room/list"
	put "$prefix" "$room/list" "$list"
}

# The list is the first file, with what an earlier install has left too, and the last one, without
# that: so an install that breaks off can be removed.
install() {
	root=$(cd "$(dirname "$0")" && pwd)/root
	expect_whole "${root%/root}"
	: >"$room/before"
	: >"$room/made"
	[ -d "$1" ] || { mkdir -p "$1"; echo ./ >"$room/made"; }
	lock "$1"
	[ ! -f "$1/$list" ] || cp "$1/$list" "$room/before"
	files "$root/$list" >"$room/files"
	folders "$root/$list" >"$room/folders"
	while read -r name; do [ -d "$1/$name" ] || echo "$name"; done <"$room/folders" >>"$room/made"
	mkdir -p "$1/$(dirname "$list")"
	keep "$1" "$room/before" "$room/files" "$room/made"
	while read -r name; do mkdir -p "$1/$name"; done <"$room/made"
	while read -r name; do [ "$name" = "$list" ] || put "$1" "$root/$name" "$name"; done <"$room/files"
	files "$room/before" | grep -vxF -f "$room/files" >"$room/old" || true
	grep -v '/libkeyset\.so\.[0-9]*$' "$room/old" >"$room/gone" || true
	while read -r name; do remove_file "$1" "$name"; done <"$room/gone"
	grep -vxF -f "$room/gone" "$room/before" >"$room/stay" || true
	keep "$1" "$room/stay" "$room/files" "$room/made"
	echo "installed $(wc -l <"$room/files") files below $1"
	if [ "$(id -u)" = 0 ] && command -v ldconfig >/dev/null; then ldconfig; fi
	command -v python3 >/dev/null || echo "the command vaqsider wants python3: 3.9 or later"
}

room=$(mktemp -d) new=
trap 'rm -rf "$room"; [ -z "$new" ] || rm -f "$new"' EXIT
case ${1-} in
--uninstall) [ $# = 2 ] || usage; remove "$2" ;;
-* | '') usage ;;
*) [ $# = 1 ] || usage; install "$1" ;;
esac
