#!/bin/sh
# The library as C programmers install it: into a folder that is then moved, found by pkg-config, and linked with host/loader.c as C89 and as C++, which prints
# what was written by hand. What cannot be installed leaves nothing. The documents have the version that is installed. Exits with 0 only if all hold.
set -eu
cd "$(dirname "$0")/../.."
root=$PWD
room=$(mktemp -d)
trap 'rm -rf "$room"' EXIT

fail() {
    echo "install.sh: $*"
    exit 1
}

case $(uname -m) in
aarch64) cc=x86_64-linux-gnu-gcc cxx=x86_64-linux-gnu-g++ link=-static ;; # the emulator runs static programs
*) cc=gcc cxx=g++ link='' ;;
esac

files() { # DIR: all files in it
    (cd "$1" && find . -type f | LC_ALL=C sort)
}

# WHAT STATUS DIR: refused so, with a message, and no file is left in the folder
refused() {
    status=0
    ./claybobbin install "$3" >"$room/got" 2>"$room/said" || status=$?
    [ "$status" -eq "$2" ] || fail "$1: it ended with status $status"
    [ ! -s "$room/got" ] || fail "$1: it wrote to standard output"
    [ -s "$room/said" ] || fail "$1: it said nothing"
    [ ! -d "$3" ] || [ -z "$(files "$3")" ] || fail "$1: it left a file"
}

refused 'no folder named' 2 ''
: >"$room/file"
refused 'a file in the place of the folder' 1 "$room/file"
mkdir -p "$room/one/lib" "$room/two/lib/pkgconfig/claybobbin.pc"
ln -s "$room/file" "$room/one/lib/pkgconfig"
refused 'a file in the place of a folder in it' 1 "$room/one"
refused 'a folder in the place of a file' 1 "$room/two"

# where rt proves nothing, an archive that an earlier run left is not installed
mkdir "$room/bin"
printf '#!/bin/sh\nexit 1\n' >"$room/bin/rt"
chmod +x "$room/bin/rt"
path=$PATH
PATH=$room/bin:$PATH
refused 'not proved' 1 "$room/three"
PATH=$path
echo "install.sh: what cannot be installed is refused and leaves nothing"

(cd "$room" && "$root/claybobbin" install 'a place/of its own') >"$room/got" 2>"$room/said" || { cat "$room/said"; fail "it ended with status $?"; }
[ ! -s "$room/got" ] || fail "it wrote to standard output"
printf './include/claybobbin.h\n./lib/libclaybobbin.a\n./lib/pkgconfig/claybobbin.pc\n' >"$room/wanted"
files "$room/a place/of its own" | diff "$room/wanted" - || fail "it installed other files"
for file in include/claybobbin.h lib/libclaybobbin.a lib/pkgconfig/claybobbin.pc; do
    grep -q "wrote .*$file\$" "$room/said" || fail "it did not say that it wrote $file"
done
cmp include/claybobbin.h "$room/a place/of its own/include/claybobbin.h"

# moved, it is found where it is now, and by nothing else of this repository
mv "$room/a place/of its own" "$room/moved"
cp host/loader.c "$room/loader.c"
cd "$room"
export PKG_CONFIG_LIBDIR="$room/moved/lib/pkgconfig" PKG_CONFIG_PATH=''
version=$(pkg-config --modversion claybobbin)
flags=$(pkg-config --cflags claybobbin)
libraries=$(pkg-config --libs claybobbin)

built() { # WHAT COMPILER..: the loader, built so, prints what it should
    what=$1
    shift
    # flags are words
    # shellcheck disable=SC2086
    "$@" -pedantic -Wall -Wextra -Werror -O2 $link $flags -o loader loader.c $libraries
    "$root/claybobbin" run loader >loader.out || fail "the loader ended with status $?"
    diff loader.out "$root/host/loader.expected"
    echo "install.sh: the loader says what it should, installed, moved and built as $what"
}

built C89 "$cc" -std=c89
built C++ "$cxx" -x c++

# installed again over itself, by a path that is not absolute; the archive is there, so a stand-in for rt that does nothing is enough
printf '#!/bin/sh\n' >bin/rt
(cd moved && PATH="$room/bin:$PATH" "$root/claybobbin" install .) >got 2>said || { cat said; fail "installing again ended with status $?"; }
files moved | diff wanted - || fail "installing again left other files"

# `version 0.9.0`, wherever these documents say it
cd "$root"
other=$(sed -n 's/.*version \([0-9][0-9.]*[0-9]\).*/\1/p' README.md docs/HOST.md | grep -v -x -F -e "$version" | head -n 1)
[ -z "$other" ] || fail "a document says version $other, and $version is installed"
echo "install.sh: what is installed is version $version, and no document says another"
