// The plain side of host/bench.rs: what a careful programmer writes in Rust for the work of each C function, with slices and nothing unsafe.
// The tables that it works in are handed to it ready. A table of echoes or reach has place i at index i, and entry 0 is unused. No row or array is empty.
// The judge is figures 1 and 2 of "Verifying a Border Array in Linear Time" (Franek, Gao, Lu, Ryan, Smyth, Sun, Yang, 2000).

// The number of an array that is the last of its length.
const LAST: u64 = 9;

// ---- rows

// Whether all cards are letters of the alphabet, by the greatest: that is found many cards at a time.
fn cards(a: usize, row: &[u8]) -> bool {
    (row.iter().fold(0u8, |greatest, card| greatest.max(card.wrapping_sub(b'a'))) as usize) < a
}

// The echo of the next card behind an echo of b, and the looks that it took.
#[inline(always)]
fn extend(row: &[u8], e: &[u16], mut b: usize, card: u8) -> (usize, usize) {
    let mut looks = 1;
    loop {
        if row[b] == card {
            return (b + 1, looks);
        }
        if b == 0 {
            return (0, looks);
        }
        b = e[b] as usize;
        looks += 1;
    }
}

// The echoes of a row: the failure function.
#[inline(never)]
pub fn failure(row: &[u8], e: &mut [u16]) {
    let mut b = 0;
    e[1] = 0;
    for i in 1..row.len() {
        b = extend(row, e, b, row[i]).0;
        e[i + 1] = b as u16;
    }
}

// The same, and how many looks it took.
#[inline(never)]
fn failure_looks(row: &[u8], e: &mut [u16]) -> usize {
    let mut b = 0;
    let mut total = 0;
    e[1] = 0;
    for i in 1..row.len() {
        let (longer, looks) = extend(row, e, b, row[i]);
        b = longer;
        total += looks;
        e[i + 1] = b as u16;
    }
    total
}

// The reach table of a row: the Z function. The cards from `start` to before `end` are those that were last found equal to an opening.
#[inline(never)]
fn z_function(row: &[u8], z: &mut [u16]) {
    let n = row.len();
    let (mut start, mut end) = (0, 0);
    z[1] = n as u16;
    for i in 1..n {
        let mut k = 0;
        if i < end {
            k = z[i - start + 1] as usize;
            if k < end - i {
                z[i + 1] = k as u16;
                continue;
            }
            k = end - i;
        }
        while i + k < n && row[k] == row[i + k] {
            k += 1;
        }
        z[i + 1] = k as u16;
        start = i;
        end = i + k;
    }
}

pub fn echoes(a: usize, row: &[u8], e: &mut [u16]) -> bool {
    let good = cards(a, row);
    if good {
        failure(row, e);
    }
    good
}

pub fn reach(a: usize, row: &[u8], z: &mut [u16]) -> bool {
    let good = cards(a, row);
    if good {
        z_function(row, z);
    }
    good
}

pub fn looks(a: usize, row: &[u8], e: &mut [u16]) -> Option<usize> {
    cards(a, row).then(|| failure_looks(row, e))
}

// The first place where the echoes of the two rows differ, 0 where they are equal.
pub fn guess(a: usize, hidden: &[u8], guess: &[u8], e: &mut [u16], f: &mut [u16]) -> Option<usize> {
    if !cards(a, hidden) || !cards(a, guess) {
        return None;
    }
    failure(hidden, e);
    failure(guess, f);
    // whole tables are compared fast, entry by entry only where they differ
    Some(if e == f { 0 } else { e.iter().zip(f.iter()).position(|(x, y)| x != y).unwrap_or(0) })
}

pub fn closing(row: &[u8], e: &mut [u16]) -> usize {
    failure(row, e);
    e[row.len()] as usize
}

// Only as many cards of the left row's end count as the right row has.
#[inline(never)]
pub fn joining(left: &[u8], right: &[u8], e: &mut [u16]) -> usize {
    failure(right, e);
    let mut b = 0;
    for &card in &left[left.len().saturating_sub(right.len())..] {
        b = extend(right, e, b, card).0;
    }
    b
}

// The text of a sheet, from the buffer's start on.
struct Text<'t> {
    buffer: &'t mut [u8],
    end: usize,
}

impl Text<'_> {
    fn word(&mut self, word: &[u8]) {
        self.buffer[self.end..self.end + word.len()].copy_from_slice(word);
        self.end += word.len();
    }

    // A tab and a number of at most four digits: a copy whose length the compiler knows takes half the time of a loop over the digits.
    fn field(&mut self, number: usize) {
        let digit = |unit: usize| b'0' + (number / unit % 10) as u8;
        if number < 10 {
            self.word(&[b'\t', digit(1)]);
        } else if number < 100 {
            self.word(&[b'\t', digit(10), digit(1)]);
        } else if number < 1000 {
            self.word(&[b'\t', digit(100), digit(10), digit(1)]);
        } else {
            self.word(&[b'\t', digit(1000), digit(100), digit(10), digit(1)]);
        }
    }

    fn line(&mut self, word: &[u8], numbers: impl Iterator<Item = usize>) {
        self.word(word);
        numbers.for_each(|number| self.field(number));
        self.word(b"\n");
    }
}

// The sheet in a buffer that has room for every sheet, and its length.
#[inline(never)]
pub fn sheet(a: usize, row: &[u8], e: &mut [u16], z: &mut [u16], buffer: &mut [u8]) -> Option<usize> {
    if !cards(a, row) {
        return None;
    }
    let n = row.len();
    let looks = failure_looks(row, e);
    z_function(row, z);
    let mut text = Text { buffer, end: 0 };
    let borders = std::iter::successors(Some(e[n] as usize), |&b| Some(e[b] as usize)).take_while(|&b| b > 0);
    text.line(b"sheet", [n, a].into_iter());
    text.line(b"echo", e[1..].iter().map(|&k| k as usize));
    text.line(b"reach", z[1..].iter().map(|&k| k as usize));
    text.line(b"periods", borders.map(|b| n - b));
    text.line(b"looks", [looks].into_iter());
    Some(text.end)
}

// ---- arrays: y[1..]; v is all false before and after

// Figure 2, its second `b <- i - 1` behind the second loop.
fn zero_valid(y: &[u16], v: &mut [bool], i: usize, alpha: usize) -> bool {
    let mut k = 0;
    let mut b = i - 1;
    while b != 0 {
        k += 1;
        b = y[b] as usize;
        v[b + 1] = true;
    }
    let mut valid = k;
    b = i - 1;
    while b != 0 {
        b = y[b] as usize;
        let mut c = b + 1;
        if v[c] {
            while y[c] > 0 {
                valid -= 1;
                c = y[c] as usize;
                v[c] = false;
            }
        }
    }
    b = i - 1;
    while b != 0 {
        b = y[b] as usize;
        v[b + 1] = false;
    }
    valid < alpha
}

// Figure 1.
fn valid(y: &[u16], v: &mut [bool], i: usize, alpha: usize) -> bool {
    let m = y[i] as usize;
    if m == 0 {
        return zero_valid(y, v, i, alpha);
    }
    let mut b = y[i - 1] as usize;
    while b > 0 && m != b + 1 {
        b = y[b] as usize;
    }
    if m != b + 1 {
        return false;
    }
    let mut c = y[i - 1] as usize;
    while c > b && b + 1 != y[c + 1] as usize {
        c = y[c] as usize;
    }
    c <= b
}

// The main algorithm of section 2: 0, or the first place that is not valid.
#[inline(never)]
pub fn judge(y: &[u16], v: &mut [bool], alpha: usize) -> usize {
    let n = y.len() - 1;
    if y[1] != 0 {
        return 1;
    }
    let mut i = 2;
    while i <= n && valid(y, v, i, alpha) {
        i += 1;
    }
    if i <= n {
        i
    } else {
        0
    }
}

// The least row with these echoes: an echo above 0 says which card, and for 0 it is the least letter that no possible value has.
#[inline(never)]
fn least_row(y: &[u16], row: &mut [u8]) {
    for i in 1..y.len() {
        row[i - 1] = if y[i] > 0 {
            row[y[i] as usize - 1]
        } else {
            let mut taken = 0u32;
            let mut b = i - 1;
            while b > 0 {
                b = y[b] as usize;
                taken |= 1 << (row[b] - b'a');
            }
            b'a' + taken.trailing_ones() as u8
        };
    }
}

pub fn rebuild(y: &[u16], v: &mut [bool], alpha: usize, row: &mut [u8]) -> bool {
    let stands = judge(y, v, alpha) == 0;
    if stands {
        least_row(y, row);
    }
    stands
}

pub fn first(a: usize, y: &mut [u16]) {
    if a == 1 {
        (0..).zip(&mut y[1..]).for_each(|(k, m)| *m = k);
    } else {
        y[1..].fill(0);
    }
}

// How many values are open at place i, and the least of them that is above m: down the chain, where a value is hidden if a greater one had it as its echo.
fn open_values(y: &[u16], v: &mut [bool], i: usize, m: usize) -> (usize, usize) {
    let (mut open, mut least) = (0, 0);
    let mut b = i - 1;
    while b > 0 {
        b = y[b] as usize;
        if !v[b + 1] {
            open += 1;
            if b + 1 > m {
                least = b + 1;
            }
        }
        v[y[b + 1] as usize] = true;
    }
    b = i - 1;
    while b > 0 {
        b = y[b] as usize;
        v[y[b + 1] as usize] = false;
    }
    (open, least)
}

pub fn least_value(y: &[u16], v: &mut [bool], i: usize, a: usize) -> usize {
    let (open, least) = open_values(y, v, i, 0);
    if open < a {
        0
    } else {
        least
    }
}

// The next array, 9 where there is none, None where the array does not stand: the last place that is below its greatest value, which always stands, rises, and
// behind it are the least values. These hang on the echo before alone, so one that comes twice comes for good; without that it would not be linear.
#[inline(never)]
pub fn next(y: &mut [u16], v: &mut [bool], a: usize) -> Option<u64> {
    if judge(y, v, a) != 0 {
        return None;
    }
    let n = y.len() - 1;
    let turn = match (2..=n).rev().find(|&i| y[i] <= y[i - 1]) {
        Some(i) => i,
        None => return Some(LAST),
    };
    y[turn] = open_values(y, v, turn, y[turn] as usize).1 as u16;
    for i in turn + 1..=n {
        y[i] = least_value(y, v, i, a) as u16;
        if y[i] == y[i - 1] {
            let same = y[i];
            y[i..].fill(same);
            break;
        }
    }
    Some(0)
}

// Depth first: every value that may stand behind the first i places, one below the other.
pub fn count(e: &mut [usize; 21], a: usize, i: usize, n: usize) -> u64 {
    if i == n {
        return 1;
    }
    if i == 0 {
        e[1] = 0;
        return count(e, a, 1, n);
    }
    let mut hidden = [false; 22];
    let mut open = 0;
    let mut total = 0;
    let mut b = e[i];
    loop {
        let m = b + 1;
        if !hidden[m] {
            open += 1;
            e[i + 1] = m;
            total += count(e, a, i + 1, n);
        }
        hidden[e[m]] = true;
        if b == 0 {
            break;
        }
        b = e[b];
    }
    if open < a {
        e[i + 1] = 0;
        total += count(e, a, i + 1, n);
    }
    total
}
