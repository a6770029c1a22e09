#!/bin/sh
# The launcher: what it does with each word, its two output streams and its status, from any folder; when it has a program proved; and how it starts one on
# either processor. The last two are tried in a small repository with stand-ins for rt, the emulator and uname, so that they are tried on every machine and
# without proving anything. Exits with 0 only if all agree.
set -u
root=$(cd "$(dirname "$0")/../.." && pwd -P) || exit 2
room=$(mktemp -d) || exit 2
room=$(cd "$room" && pwd -P) || exit 2
trap 'rm -rf "$room"' EXIT
passed=0 failed=0

counted() { # STATUS WHAT
    if [ "$1" -eq 0 ]; then
        passed=$((passed + 1))
    else
        failed=$((failed + 1))
        echo "launcher.sh: $2"
        sed 's/^/    on standard output: /' "$room/got"
        sed 's/^/    on standard error: /' "$room/said"
    fi
}

# WHAT STATUS COMMAND..: run on the file `in`, it ends with the status
ends() {
    what=$1 wanted=$2
    shift 2
    "$@" <"$room/in" >"$room/got" 2>"$room/said"
    status=$?
    [ "$status" -eq "$wanted" ]
    counted $? "$what: it ended with status $status, not $wanted"
}

prints() { # FILE: what it wrote to standard output
    cmp -s "$room/got" "$1"
    counted $? "$what: it printed something else"
}

says() { # TEXT: a part of a line on standard error
    grep -q -e "$1" "$room/said"
    counted $? "$what: it did not say '$1'"
}

silent() { # nothing on standard error
    [ ! -s "$room/said" ]
    counted $? "$what: it said something"
}

: >"$room/nothing"

# ---- this repository

printf '3\tabaab\n' >"$room/in"
printf 'sheet\t5\t3\necho\t0\t0\t1\t1\t2\nreach\t5\t0\t1\t2\t0\nperiods\t3\nlooks\t5\n' >"$room/sheet"

ends 'no word' 2 "$root/claybobbin"
prints "$room/nothing"
says '^  sheet$'
says '^  install DIR$'
if grep -q cases_ "$room/said"; then false; fi
counted $? 'no word: a program of cases is listed'

for word in help cases_rows corridor ../sheet sheet/ '' '*' -x; do
    ends "the word '$word'" 2 "$root/claybobbin" "$word"
    prints "$room/nothing"
    says 'no such program or command'
    says '^  sheet$'
done
ends 'run without a file' 2 "$root/claybobbin" run
ends 'install without a folder' 2 "$root/claybobbin" install

ends 'the sheet program' 0 "$root/claybobbin" sheet # it may have to be proved
ln -s "$root/claybobbin" "$room/link"
cd "$root/host/tests" || exit 2
for launcher in "$root/claybobbin" ../../claybobbin "$room/link"; do
    ends "sheet by $launcher" 0 "$launcher" sheet
    prints "$room/sheet"
    silent
done
cd / || exit 2
ends 'sheet from /' 0 "$root/claybobbin" sheet
prints "$room/sheet"
silent

# ---- a small repository

mkdir -p "$room/repo/crates/hello/src" "$room/repo/crates/cases_hello/src" "$room/repo/crates/below/src/out" "$room/bin" "$room/kit/on/aarch64/toolchain/bin" || exit 2
cd "$room/repo" || exit 2
cp "$root/claybobbin" .
printf 'below:\nhello: below\n' >crates.txt
echo '// Says hello.' >crates/hello/src/main.rt
echo '// Cases.' >crates/cases_hello/src/main.rt
echo '// A library.' >crates/below/src/lib.rt
echo '// A part of it.' >crates/below/src/out/part.rt

# a program that hands on its input, prints its arguments and its folder, and ends with status 7
# shellcheck disable=SC2016
printf '#!/bin/sh\ncat\necho "$#: $*"\npwd\nexit 7\n' >"$room/program"
# rt reads all that it can, writes to both streams, builds that program in the crate's folder, and leaves its stamp and what it keeps of the crate below
cat >"$room/bin/rt" <<END
#!/bin/sh
[ "\$1" != doc ] || { echo doc >>"$room/asked"; echo "$room/kit/START-HERE.md"; exit; }
echo "\${PWD##*/}: \$*" >>"$room/asked"
cat >/dev/null
echo 'rt on standard output'
echo 'rt on standard error' >&2
[ ! -e "$room/unproved" ] || exit 3
mkdir -p out ../below/out
echo proved >../below/out/kept
cp "$room/program" out/hello
echo proved >out/hello.stamp
[ ! -e "$room/untried" ] || exit 1
END
# the emulator says what it was asked, and runs what is behind the words that are its own and the loader's
cat >"$room/kit/on/aarch64/toolchain/bin/qemu-x86_64" <<END
#!/bin/sh
echo "emulated \$*" >&2
shift 2
case \$1 in */ld-linux-x86-64.so.2) shift 3 ;; esac
exec "\$@"
END
printf '#!/bin/sh\ncat "%s"\n' "$room/machine" >"$room/bin/uname"
chmod +x "$room/program" "$room/bin/rt" "$room/bin/uname" "$room/kit/on/aarch64/toolchain/bin/qemu-x86_64"
PATH=$room/bin:$PATH
echo x86_64 >"$room/machine"

asked() { # WORDS..: what rt was asked since the last time, a line each
    printf '%s\n' "$@" >"$room/wanted"
    [ -n "$*" ] || : >"$room/wanted"
    touch "$room/asked"
    cmp -s "$room/asked" "$room/wanted"
    counted $? "$what: rt was asked '$(cat "$room/asked")'"
    rm -f "$room/asked"
}

printf 'one\ntwo\n' >"$room/in"
{ cat "$room/in" && echo '2: a b  c' && echo "$room/repo"; } >"$room/hello"
{ cat "$room/in" && echo '0: ' && echo "$room/repo/crates"; } >"$room/hello-crates"

ends 'not built yet' 7 ./claybobbin hello a 'b  c'
prints "$room/hello"
says 'proving and building hello'
says 'rt on standard output'
says 'rt on standard error'
asked 'hello: all test'
ends 'built' 7 ./claybobbin hello a 'b  c'
prints "$room/hello"
silent
asked ''
touch -t 200001010000 crates/hello/out/hello.stamp
ends 'a source is younger' 7 ./claybobbin hello a 'b  c'
prints "$room/hello"
asked 'hello: all test'
ends 'proved again' 7 ./claybobbin hello a 'b  c'
silent
asked ''
for source in crates/below/src/lib.rt crates/below/src/out/part.rt crates.txt; do
    touch -d '1 second' "$source"
    ends "$source is younger" 7 ./claybobbin hello a 'b  c'
    asked 'hello: all test'
    touch -t 200001010000 "$source"
done
touch -d '1 second' crates/below/out/kept
ends 'what rt keeps is younger' 7 ./claybobbin hello a 'b  c'
silent
asked ''
cd crates || exit 2
ends 'from a folder below' 7 ../claybobbin hello
prints "$room/hello-crates"
silent
cd .. || exit 2
rm crates/hello/out/hello
ends 'the program is gone' 7 ./claybobbin hello a 'b  c'
asked 'hello: all test'
rm crates/hello/out/hello.stamp
ends 'the stamp is gone' 7 ./claybobbin hello a 'b  c'
asked 'hello: all test'
for why in unproved untried; do # not proved any more; proved, and its run writes something else than it should
    touch -t 200001010000 crates/hello/out/hello.stamp
    : >"$room/$why"
    for time in first second; do
        ends "$why, the $time time" 1 ./claybobbin hello
        prints "$room/nothing"
        says 'hello is not proved'
        asked 'hello: all test'
    done
    rm "$room/$why"
    ends "no longer $why" 7 ./claybobbin hello a 'b  c'
    prints "$room/hello"
    asked 'hello: all test'
done

mkdir -p crates/later/src
echo '// Added later.' >crates/later/src/main.rt
ends 'a program is added' 2 ./claybobbin
says '^  hello$'
says '^  later$'
says '^      Added later.$'

# run: the file in this folder, not the one of its name on the PATH
cp "$room/program" ./uname
ends 'run' 7 ./claybobbin run uname a 'b  c'
prints "$room/hello"
silent
asked ''

./claybobbin hello <"$room/in" >"$room/got" 2>"$room/said"
rm -f "$room/asked"
echo aarch64 >"$room/machine"
tools=$room/kit/on/aarch64/toolchain
ends 'a program, emulated' 7 ./claybobbin hello a 'b  c'
prints "$room/hello"
says "^emulated -cpu qemu64 $tools/lib/ld-linux-x86-64.so.2 --library-path $tools/lib $room/repo/crates/hello/out/hello a b  c\$"
asked doc
ends 'run, emulated' 7 ./claybobbin run uname a 'b  c'
prints "$room/hello"
says '^emulated -cpu qemu64 ./uname a b  c$'
rm "$tools/bin/qemu-x86_64"
ends 'no emulator' 1 ./claybobbin hello
prints "$room/nothing"
says 'no emulator'

echo "launcher.sh: $passed agree, $failed differ"
[ "$failed" -eq 0 ]
