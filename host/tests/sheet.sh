#!/bin/sh
# Runs the sheet program, by its launcher, on true standard input and compares what it prints with what the rules of the sheet say. Exits with 0 only if all
# agree.
set -u
root=$(cd "$(dirname "$0")/../.." && pwd -P) || exit 2
room=$(mktemp -d) || exit 2
trap 'rm -rf "$room"' EXIT
passed=0 failed=0

run() { "$root/claybobbin" sheet; }

# where it cannot be proved, once is enough
run </dev/null >"$room/got" || { echo "sheet.sh: the program does not run"; exit 1; }

# WHAT STATUS: the program ended with status 0, and what it printed is the file `want`
agree() {
    if [ "$2" -ne 0 ]; then
        failed=$((failed + 1))
        echo "sheet.sh: $1: the program ended with status $2"
    elif cmp -s "$room/got" "$room/want"; then
        passed=$((passed + 1))
    else
        failed=$((failed + 1))
        echo "sheet.sh: $1: wanted"
        head -c 300 "$room/want"
        echo "sheet.sh: $1: got"
        head -c 300 "$room/got"
    fi
}

# WHAT: what the program prints for the file `in` must be the file `want`
same() {
    run <"$room/in" >"$room/got"
    agree "$1" $?
}

# WHAT: the same where the file comes through a pipe
piped() {
    # shellcheck disable=SC2002
    cat "$room/in" | run >"$room/got"
    agree "$1" $?
}

# WHAT INPUT NUMBER PLACE: the input, in printf's notation, is refused
refused() {
    # shellcheck disable=SC2059
    printf "$2" >"$room/in"
    printf 'refused\t%s\t%s\n' "$3" "$4" >"$room/want"
    same "$1"
}

# WHAT INPUT SHEET: the input has this sheet, both in printf's notation
sheet() {
    # shellcheck disable=SC2059
    printf "$2" >"$room/in"
    # shellcheck disable=SC2059
    printf "$3" >"$room/want"
    same "$1"
}

many() { head -c "$1" /dev/zero | tr '\0' a; } # so many a

abaab='sheet\t5\t3\necho\t0\t0\t1\t1\t2\nreach\t5\t0\t1\t2\t0\nperiods\t3\nlooks\t5\n'
one3='sheet\t1\t3\necho\t0\nreach\t1\nperiods\nlooks\t0\n'
one26='sheet\t1\t26\necho\t0\nreach\t1\nperiods\nlooks\t0\n'
none1='sheet\t0\t1\necho\nreach\nperiods\nlooks\t0\n'

sheet 'the example' '3\tabaab\n' "$abaab"
sheet 'no byte 10' '3\tabaab' "$abaab"
sheet 'bytes behind byte 10' '3\tabaab\n4\tzz\t\n\n' "$abaab"
sheet 'byte 10 right behind byte 10' '3\tabaab\n\n' "$abaab"
sheet 'A 03' '03\ta\n' "$one3"
sheet 'A 26' '26\ta\n' "$one26"
sheet 'an empty row' '1\t\n' "$none1"
sheet 'an empty row without byte 10' '1\t' "$none1"
sheet 'aab' '2\taab\n' 'sheet\t3\t2\necho\t0\t1\t0\nreach\t3\t1\t0\nperiods\nlooks\t3\n'

refused 'empty input' '' 1 0
refused 'a lone byte 10' '\n' 1 0
refused 'byte 10 first' '\n3\tabaab\n' 1 0
refused 'no tab' '3abaab\n' 1 0
refused 'A alone' '3\n' 1 0
refused 'a tab alone' '\t' 1 0
refused 'an empty A' '\tabaab\n' 1 0
refused 'two tabs' '3\tab\taab\n' 1 0
refused 'two tabs together' '3\t\tabaab\n' 1 0
refused 'a tab at the end' '3\tabaab\t\n' 1 0
refused 'a tab at the front' '\t3\tabaab\n' 1 0
refused 'a tab behind byte 10 alone' '3abaab\n\t' 1 0
refused 'three digits' '003\ta\n' 1 0
refused 'a hundred' '100\ta\n' 1 0
refused 'a letter for A' 'c\ta\n' 1 0
refused 'a digit and a letter for A' '3c\ta\n' 1 0
refused 'a sign before A' '+3\ta\n' 1 0
refused 'a blank before A' ' 3\ta\n' 1 0
refused 'a blank behind A' '3 \ta\n' 1 0
refused 'byte 47 for A' '/\ta\n' 1 0
refused 'byte 58 for A' ':\ta\n' 1 0
refused 'byte 0 in A' '\0003\ta\n' 1 0
refused 'A 0' '0\ta\n' 1 0
refused 'A 00' '00\ta\n' 1 0
refused 'A 27' '27\ta\n' 1 0
refused 'A 99' '99\ta\n' 1 0
refused 'A 27 before a bad card' '27\t-\n' 1 0
refused 'byte 0 in the row' '3\tab\000ab\n' 4 3
refused 'byte 13 in the row' '3\tabaab\r\n' 4 6
refused 'byte 255 in the row' '3\t\377baab\n' 4 1
refused 'a letter behind the alphabet' '3\tabaad\n' 4 5
refused 'a capital' '26\taA\n' 4 2
refused 'the first of two bad cards' '2\tabcc\n' 4 3

# 4,096 a over A 26, the longest sheet: the echo of place i is i - 1, the reach of place i is 4097 - i, each of 1 to 4,095 is a period, and there are 4,095 looks
{ printf '26\t' && many 4096 && echo; } >"$room/in"
awk 'BEGIN {
    printf "sheet\t4096\t26\necho"
    for (i = 1; i <= 4096; i++) printf "\t%d", i - 1
    printf "\nreach"
    for (i = 1; i <= 4096; i++) printf "\t%d", 4097 - i
    printf "\nperiods"
    for (i = 1; i <= 4095; i++) printf "\t%d", i
    printf "\nlooks\t4095\n"
}' >"$room/want"
[ "$(wc -c <"$room/want")" -eq 58155 ] || { echo "sheet.sh: the sheet of 4,096 a over A 26 has 58,155 bytes"; failed=$((failed + 1)); }
same '4096 a'

# WHAT A COUNT TAIL NUMBER PLACE: A, a tab, so many a and the tail, in printf's notation, are refused
refused_row() {
    # shellcheck disable=SC2059
    { printf "$2\t" && many "$3" && printf "$4"; } >"$room/in"
    printf 'refused\t%s\t%s\n' "$5" "$6" >"$room/want"
    same "$1"
}

refused_row '4097 a' 1 4097 '\n' 2 0
refused_row '4097 a without byte 10' 1 4097 '' 2 0
refused_row 'a bad card at place 4096' 1 4095 'b\n' 4 4096
refused_row 'a bad card at place 4097' 1 4096 'b\n' 2 0
refused_row '5000 a' 26 5000 '\n' 2 0
refused_row '5000 a, A 0' 0 5000 '\n' 1 0
refused_row '4096 a and a tab' 1 4096 '\t\n' 1 0
refused_row '5000 a and a tab' 1 5000 '\t\n' 1 0
refused_row '65533 a and a tab at a seam' 1 65533 '\t\n' 1 0
refused_row '200000 a' 1 200000 '\n' 2 0
refused_row '200000 a and a tab' 1 200000 '\t' 1 0
refused_row '200000 a, byte 10 and a tab' 1 200000 '\n\t' 2 0
refused_row 'letters for A before 200000 a' aaa 200000 '\n' 1 0

# the same, from a file and through a pipe: a second tab is seen though it is megabytes behind the first
refused_ways() {
    refused_row "$@"
    piped "$1, through a pipe"
}

refused_ways '3000000 a and a tab' 1 3000000 '\t\n' 1 0
refused_ways '3000000 a and a tab without byte 10' 1 3000000 '\t' 1 0
refused_ways '3000000 a' 1 3000000 '\n' 2 0
refused_ways '3000000 a without byte 10' 1 3000000 '' 2 0

# the same line in pieces as they come through a pipe
# shellcheck disable=SC2059
printf "$abaab" >"$room/want"
{ printf '0' && sleep 1 && printf '3\tab' && sleep 1 && printf 'aab' && sleep 1 && printf '\n'; } | run >"$room/got"
agree 'pieces through a pipe' $?

# 197 a and a b over A 2, byte by byte: the echo of place i is i - 1 and its reach 198 - i, but place 1 has reach 198 and place 198 has neither; no border, so no
# period; one look at each place of an a behind the first, and one at each of the 197 values from 196 down to 0 for the b
awk 'BEGIN {
    printf "sheet\t198\t2\necho"
    for (i = 1; i <= 197; i++) printf "\t%d", i - 1
    printf "\t0\nreach\t198"
    for (i = 2; i <= 197; i++) printf "\t%d", 198 - i
    printf "\t0\nperiods\nlooks\t%d\n", 196 + 197
}' >"$room/want"

# TAIL: the line and then the tail, each byte written by itself, once the launcher is through; starting a program behind each gives the reader its time
bytes() {
    sleep 1
    for byte in 2 '\t' $(awk 'BEGIN { for (i = 1; i <= 197; i++) print "a" }') b "$@"; do
        # shellcheck disable=SC2059
        printf "$byte"
        env true
    done
}

bytes '\n' | run >"$room/got"
agree '201 pieces through a pipe' $?
bytes | run >"$room/got"
agree '200 pieces through a pipe and the end of input' $?

echo "sheet.sh: $passed agree, $failed differ"
[ "$failed" -eq 0 ]
