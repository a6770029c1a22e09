#!/bin/sh
# The host side: the C loader prints what was written by hand, the example of docs/HOST.md what it says there, the independent check finds no difference among
# over five million inputs and counts 20 places as the expected output of cases_listing has it, and the benchmark still runs (a round of it, whose figures nobody
# judges). Each program has to end with status 0; what it printed is compared after that.
set -eu
cd "$(dirname "$0")/../.."
out=target/host
sh host/build.sh loader example check bench

run() { # NAME ARGUMENT..: runs the program into NAME.out
    name=$1
    shift
    "$out/$name" "$@" >"$out/$name.out" || {
        echo "host: $name ended with status $?"
        cat "$out/$name.out"
        exit 1
    }
}

run loader
diff "$out/loader.out" host/loader.expected
echo "host: the loader says what it should"

run example
printf 'sheet\t5\t3\necho\t0\t0\t1\t1\t2\nreach\t5\t0\t1\t2\t0\nperiods\t3\nlooks\t5\nrefused: number 5 at place 5\n' >"$out/example.expected"
diff "$out/example.out" "$out/example.expected"
echo "host: the example of docs/HOST.md says what it should"

run check long
cat "$out/check.out"
grep '^n 20, A ' "$out/check.out" >"$out/counts.out"
grep '^n 20, A ' crates/cases_listing/stdout >"$out/counts.expected"
diff "$out/counts.out" "$out/counts.expected"
echo "host: crates/cases_listing/stdout has the counts of 20 places that the check counted"

run bench 1
