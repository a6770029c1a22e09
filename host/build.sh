#!/bin/sh
# build.sh NAME..: proves crates/host_c, leaves its archive in target/staticlib/libhost.a, and builds host/NAME.c or host/NAME.rs with it into target/host/NAME, a static x86-64 program. The name `example` is
# the C example of docs/HOST.md, taken out of the document. The program is NAME.x86-64 there, and NAME is a line that has ./claybobbin run it on this machine.
set -eu
cd "$(dirname "$0")/.."
out=target/host
archive=target/staticlib/libhost.a
mkdir -p "$out"

case $(uname -m) in
aarch64) cc=x86_64-linux-gnu-gcc cxx=x86_64-linux-gnu-g++ rustc=/usr/bin/rustc ;;
*) cc=gcc cxx=g++ rustc=rustc ;;
esac

quietly() { # COMMAND..: what it says counts only where it fails
    "$@" >"$out/log" 2>&1 || {
        cat "$out/log"
        exit 1
    }
}

example() { # the indented lines under the document's heading
    awk '/^#/ { under = $0 == "## An example" } under && /^(    |$)/ { print substr($0, 5) }' docs/HOST.md
}

c_program() { # FILE PROGRAM: the header is plain C89, and C++ takes it
    for standard in c89 c99 c11; do
        "$cc" -std=$standard -pedantic -Wall -Wextra -Werror -Iinclude -x c -fsyntax-only "$1"
    done
    "$cxx" -pedantic -Wall -Wextra -Werror -Iinclude -x c++ -fsyntax-only "$1"
    "$cc" -std=c89 -O2 -static -Iinclude -o "$2" "$1" "$archive"
}

prove_archive() { (cd crates/host_c && rt lib) && mkdir -p "${archive%/*}" && cp crates/host_c/out/libhost_c.a "$archive"; }

quietly prove_archive

for name in "$@"; do
    program=$out/$name.x86-64
    if [ "$name" = example ]; then
        example >"$out/example.c"
        c_program "$out/example.c" "$program"
    elif [ -e "host/$name.c" ]; then
        c_program "host/$name.c" "$program"
    else
        # jumps are kept off the 32-byte lines: on some processors one that crosses a line is slow, and a benchmark would measure where they happen to lie
        "$rustc" -O -C panic=abort -C llvm-args=-x86-branches-within-32B-boundaries --edition 2021 --crate-type staticlib --target x86_64-unknown-linux-gnu -o "$out/lib$name.a" "host/$name.rs"
        # a static program warns of what it would load to look up a host's name, which none of these does
        quietly "$cc" -static -o "$program" "$out/lib$name.a" "$archive"
    fi
    printf '#!/bin/sh\nexec "%s" run "%s" "$@"\n' "$PWD/claybobbin" "$PWD/$program" >"$out/$name"
    chmod +x "$out/$name"
done
