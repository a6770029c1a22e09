#!/bin/sh
# Holds the outputs that the programs of cases are compared with against 01's definitions: whatever those outputs say of long lists and texts, of looks at the
# limit, and of the walks over all arrays of six places. The figures are worked out here, from the definitions alone, and never read from a run.
#
# A list of over 20 numbers stands there by its last one, the word `sum`, and each entry times its place (from 1) summed up; a text of over 100 bytes by its
# last three bytes and the same sum of its bytes. Every line of those outputs that has a sum must be worked out here, and every line that is worked out here
# must be there, in this order.
# - Echoes, reach, looks, periods and strips: each by the definition of its word, card by card, and not by a rule for it.
# - The arrays of six places: every row of six cards over A is written down with its echoes. A row of six has at most six letters, and echoes ask only which
#   cards are equal, so over A 26 the rows over six letters have all of them. The listing is then every array 0 .. i - 1 at place i, in dictionary order,
#   that a row has.
# - A refused buffer is as it was: all sevens, all dots, or the array that was lent.
# - 0 1 2 .. at the limit: it is the greatest of all arrays, since no echo of place i is over i - 1, so none is next. Only cards that are all alike have it, and
#   the least such row is all `a`. Behind 4,095 cards that are all alike the echo is 4,095 or 0, so what is next to a 0 there is 4,095; the least row with that
#   0 is 4,095 `a` and a `b`, and over one letter there is none: 7. Of the others there, 4,094 is possible and hidden (by 4,095, whose echo it is): 6; 4,096 is
#   not possible: 5.
# - The first array over A >= 2 is all zeros, since a row has it: `a` and then `b` alone. The least of all that are greater ends in 1: the same row with its last
#   card an `a`. Over one letter there is one row, and its array is the first and the last.
set -u
export LC_ALL=C
cd "$(dirname "$0")/../.." || exit 2
room=$(mktemp -d) || exit 2
trap 'rm -rf "$room"' EXIT

awk -v room="$room" '
# ---- the words

# The greatest k below i such that the first k cards of the first i equal the last k.
function echo_of(row, i,    k) {
    for (k = i - 1; k > 0; k--)
        if (substr(row, k, 1) == substr(row, i, 1) && substr(row, 1, k) == substr(row, i - k + 1, k)) return k
    return 0
}

function echoes(row, e,    i) {
    for (i = 1; i <= length(row); i++) e[i] = echo_of(row, i)
}

# The greatest k such that the k cards from i equal the first k.
function reach_of(row, i,    k) {
    for (k = length(row) - i + 1; k > 0; k--)
        if (substr(row, i, k) == substr(row, 1, k)) return k
    return 0
}

# For i from 2 start with b = e[i - 1]. One look compares card b + 1 with card i. Equal: stop. Unequal and b = 0: stop. Otherwise b becomes e[b].
function looks(row, e,    i, b, sum) {
    sum = 0
    for (i = 2; i <= length(row); i++)
        for (b = e[i - 1]; ; b = e[b]) {
            sum++
            if (substr(row, b + 1, 1) == substr(row, i, 1) || b == 0) break
        }
    return sum
}

# The length of the row less that of a border that is not empty, ascending, each behind a tab.
function periods(row,    n, k, list) {
    n = length(row)
    for (k = n - 1; k > 0; k--)
        if (substr(row, 1, k) == substr(row, n - k + 1, k)) list = list "\t" n - k
    return list
}

# The last e[n] cards.
function closing(row,    n) {
    n = length(row)
    return substr(row, n - echo_of(row, n) + 1)
}

# The first k cards of the right row, k the greatest length at which the left row ends as the right one opens.
function joining(left, right,    k) {
    for (k = length(right); k > 0; k--)
        if (k <= length(left) && substr(left, length(left) - k + 1) == substr(right, 1, k)) return substr(right, 1, k)
    return ""
}

function sheet(row, a,    n, i, e, text) {
    n = length(row)
    echoes(row, e)
    text = "sheet\t" n "\t" a "\necho"
    for (i = 1; i <= n; i++) text = text "\t" e[i]
    text = text "\nreach"
    for (i = 1; i <= n; i++) text = text "\t" reach_of(row, i)
    return text "\nperiods" periods(row) "\nlooks\t" looks(row, e) "\n"
}

# ---- rows and lists

function many(card, n,    half) {
    if (n == 0) return ""
    half = many(card, int(n / 2))
    return half half (n % 2 ? card : "")
}

# abacabad..: the card of place i is the letter that says how often 2 divides i.
function ruler(n,    i, k, row) {
    for (i = 1; i <= n; i++) {
        for (k = 1; i % (2 * k) == 0; k *= 2);
        row = row letter[k]
    }
    return row
}

function fill(e, n, v) {
    for (; n > 0; n--) e[n] = v
}

# ---- what the programs show

function list(e, n,    i, sum) {
    sum = 0
    for (i = 1; i <= n; i++) sum += i * e[i]
    return "\t" e[n] "\tsum\t" sprintf("%.0f", sum)
}

function text(t,    i, sum) {
    sum = 0
    for (i = 1; i <= length(t); i++) sum += i * code[substr(t, i, 1)]
    return substr(t, length(t) - 2) "\tsum\t" sprintf("%.0f", sum)
}

function line(words) {
    print words > file
}

# The echoes of a row and, where they are asked for, its looks.
function row_lines(label, row, looked,    e) {
    echoes(row, e)
    line(label "\t0\t0" list(e, length(row)))
    if (looked) line(label " looks\t0\t0\t" looks(row, e))
}

# A buffer of n sevens, refused.
function sevens_line(label, number, place, n,    e) {
    fill(e, n, 7)
    line(label "\t" number "\t" place list(e, n))
}

# ---- all arrays of n places

function grow(row, array, a, n,    c, longer) {
    if (length(row) == n) {
        had[array] = 1
        return
    }
    for (c = 1; c <= a; c++) {
        longer = row c
        grow(longer, array "\t" echo_of(longer, length(longer)), a, n)
    }
}

function all(array, i, n,    m) {
    if (i <= n)
        for (m = 0; m < i; m++) all(array "\t" m, i + 1, n)
    else if (array in had)
        line((found++ ? "next" : "first\t0\t0") array)
}

function walk(a, n,    array) {
    for (array in had) delete had[array]
    found = 0
    grow("", "", a < n ? a : n, n)
    all("", 1, n)
    line("end\t9\t0\t" found)
}

# ---- the lines, in the order of the outputs

function rows(    long) {
    long = many("a", 4096)
    sevens_line("4097 cards", 2, 0, 4097)
    row_lines("4096 a", long, 1)
    row_lines("2048 a", many("a", 2048), 0)
    row_lines("4095 a, b", many("a", 4095) "b", 1)
    row_lines("ruler 4096", ruler(4096), 1)
    sevens_line("ruler 4096, A 12", 4, index(ruler(4096), "m"), 4096)
    row_lines("ruler 4095", ruler(4095), 1)
    line("closing\t" text(closing(long)))
    line("joining\t" text(joining(long, long)))
}

function arrays(    dots) {
    dots = many(".", 4096)
    line("4096 rising\t0\t0\t0\t0\t" text(many("a", 4096)))
    line("4096, last 4094\t6\t4096\t6\t4096\t" text(dots))
    line("4096, last 4096\t5\t4096\t5\t4096\t" text(dots))
    line("4096, last 0, A 1\t7\t4096\t7\t4096\t" text(dots))
    line("4096, last 0, A 2\t0\t0\t0\t0\t" text(many("a", 4095) "b"))
    line("4097 echoes\t2\t0\t2\t0\t" text(dots "."))
}

function listing(    i, rise, first, second) {
    walk(1, 6)
    walk(2, 6)
    walk(3, 6)
    walk(26, 6)
    walk(5, 0)
    echoes(many("a", 4096), rise)
    echoes("a" many("b", 4095), first)
    for (i = 1; i < 4096; i++) second[i] = first[i]
    second[4096] = echo_of("a" many("b", 4094) "a", 4096)
    for (i = 1; i <= 2; i++) {
        line("rising\t9\t0" list(rise, 4096))
        line("zero last\t0\t0" list(rise, 4096))
        line("first\t0\t0" list(first, 4096))
        line("behind the first\t0\t0" list(second, 4096))
    }
    line("rising\t9\t0" list(rise, 4096))
    rise[4096] = 0
    line("zero last\t7\t4096" list(rise, 4096))
    rise[4096] = 4095
    line("first\t0\t0" list(rise, 4096))
    line("behind the first\t9\t0" list(rise, 4096))
    sevens_line("4097", 2, 0, 4097)
    sevens_line("first, 4097", 2, 0, 4097)
}

function sheets(    long, i, e, whole) {
    long = many("a", 4096)
    for (i = 1; i <= 4096; i++) e[i] = reach_of(long, i)
    line("4096 a reach\t0\t0" list(e, 4096))
    sevens_line("4097 reach", 2, 0, 4097)
    whole = sheet(long, 26)
    line("4096 a\t0\t0\t" length(whole))
    line(text(whole many(".", 61500 - length(whole))))
    line("4096 a, one short\t8\t0\t0")
    line(text(many(".", length(whole) - 1)))
}

BEGIN {
    for (i = 1; i < 128; i++) code[sprintf("%c", i)] = i
    for (i = 0; i < 13; i++) letter[2 ^ i] = sprintf("%c", 97 + i)
    file = room "/rows"
    rows()
    file = room "/arrays"
    arrays()
    file = room "/listing"
    listing()
    file = room "/sheets"
    sheets()
}' || { echo "expected.sh: awk failed"; exit 1; }

failed=0
for name in rows arrays listing sheets; do
    stdout=crates/cases_$name/stdout
    if ! awk -F '\t' 'NR == FNR { if (!/\tsum\t/) label[$1]; next } /\tsum\t/ || $1 in label' "$room/$name" "$stdout" >"$room/got"; then
        echo "expected.sh: $stdout cannot be read"
        failed=1
    elif diff "$room/$name" "$room/got"; then
        echo "expected.sh: $(wc -l <"$room/$name") lines of $stdout are as the definitions have them"
    else
        echo "expected.sh: $stdout (>) is not as the definitions have it (<)"
        failed=1
    fi
done
exit "$failed"
