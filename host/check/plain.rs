// Each answer by plain code that is fast enough for long inputs; it is held against the definitions on short ones first. Arrays are judged by figures 1 and 2
// of "Verifying a Border Array in Linear Time" (Franek, Gao, Lu, Ryan, Smyth, Sun, Yang, 2000), the second with its last `b <- i - 1` behind the second loop,
// where it ends.
use super::calls::{done, refused, Answer, Outcome};
use super::definitions::Lists;
use super::inputs::LETTERS;

// ---- rows

// The failure function of Knuth, Morris and Pratt, and how many comparisons it took: those are the looks.
pub fn echoes(row: &[u8]) -> (Vec<u16>, usize) {
    let mut e: Vec<u16> = Vec::new();
    let mut comparisons = 0;
    for i in 0..row.len() {
        let mut k = if i == 0 { 0 } else { e[i - 1] as usize };
        while i > 0 {
            comparisons += 1;
            if row[k] == row[i] {
                k += 1;
                break;
            }
            if k == 0 {
                break;
            }
            k = e[k - 1] as usize;
        }
        e.push(k as u16);
    }
    (e, comparisons)
}

// The Z function: the window from `left` to `right`, the one that ends last, equals the row's opening.
fn reach(row: &[u8]) -> Vec<u16> {
    let n = row.len();
    let mut z = vec![0; n];
    let (mut left, mut right) = (0, 0);
    for i in 0..n {
        let mut k = if i == 0 || i >= right { 0 } else { usize::min(z[i - left], right - i) };
        while i + k < n && row[k] == row[i + k] {
            k += 1;
        }
        z[i] = k;
        if i > 0 && i + k > right {
            left = i;
            right = i + k;
        }
    }
    z.into_iter().map(|k| k as u16).collect()
}

// All borders of the row are on the chain of its last place.
fn periods(e: &[u16]) -> Vec<usize> {
    let mut periods = Vec::new();
    let mut k = e.last().map_or(0, |&k| k as usize);
    while k > 0 {
        periods.push(e.len() - k);
        k = e[k - 1] as usize;
    }
    periods
}

pub fn lists(row: &[u8]) -> Lists {
    let (echoes, looks) = echoes(row);
    Lists { reach: reach(row), periods: periods(&echoes), echoes, looks }
}

// Looks for the right row in the left one: what is matched at its end.
pub fn joining(left: &[u8], right: &[u8]) -> usize {
    let (e, _) = echoes(right);
    let mut k = 0;
    for &card in left {
        while k > 0 && (k == right.len() || right[k] != card) {
            k = e[k - 1] as usize;
        }
        if k < right.len() && right[k] == card {
            k += 1;
        }
    }
    k
}

// ---- judging, by the paper; y[0] is not used

// Figure 2 up to its last line: how many values above 0 are valid at place i.
pub fn extensions(y: &[usize], v: &mut [bool], i: usize) -> usize {
    let mut k = 0;
    let mut b = i - 1;
    while b != 0 {
        k += 1;
        b = y[b];
        v[b + 1] = true;
    }
    let mut extensions = k;
    b = i - 1;
    while b != 0 {
        b = y[b];
        let mut c = b + 1;
        if v[c] {
            while y[c] > 0 {
                extensions -= 1;
                c = y[c];
                v[c] = false;
            }
        }
    }
    b = i - 1;
    while b != 0 {
        b = y[b];
        v[b + 1] = false;
    }
    extensions
}

// The number of place i: 0 where the figure returns TRUE, else which of its tests returned FALSE.
pub fn valid(y: &[usize], v: &mut [bool], i: usize, alpha: usize) -> u64 {
    if y[i] == 0 {
        return if extensions(y, v, i) < alpha { 0 } else { 7 };
    }
    let mut b = y[i - 1];
    while b > 0 && y[i] != b + 1 {
        b = y[b];
    }
    if y[i] != b + 1 {
        return 5;
    }
    let mut c = y[i - 1];
    while c > b && b + 1 != y[c + 1] {
        c = y[c];
    }
    if c <= b {
        0
    } else {
        6
    }
}

pub fn judge(a: usize, e: &[u16]) -> Answer {
    let n = e.len();
    let mut y = vec![0usize];
    y.extend(e.iter().map(|&m| m as usize));
    let mut v = vec![false; n + 2];
    if n > 0 && y[1] != 0 {
        return refused(5, 1);
    }
    for i in 2..=n {
        let w = valid(&y, &mut v, i, a);
        if w != 0 {
            return refused(w, i);
        }
    }
    done(0)
}

// ---- rows and arrays from arrays that stand

// The echo that each letter would have behind the first i cards of the row: along the chain of place i the first card that is the letter decides.
fn by_letter(row: &[u8], e: &[u16], i: usize) -> [u16; LETTERS] {
    let mut echo = [0; LETTERS];
    let mut b = i;
    while b > 0 {
        b = e[b - 1] as usize;
        let letter = (row[b] - b'a') as usize;
        if echo[letter] == 0 {
            echo[letter] = b as u16 + 1;
        }
    }
    echo
}

// An echo above 0 has the card of its own place; a zero has the least letter that gives it.
fn least_row(e: &[u16]) -> Vec<u8> {
    let mut row = Vec::new();
    for i in 0..e.len() {
        row.push(match e[i] {
            0 => b'a' + by_letter(&row, e, i).iter().position(|&m| m == 0).unwrap() as u8,
            m => row[m as usize - 1],
        });
    }
    row
}

// The last place at which some letter gives a greater value takes the least such value, and every place behind it the least that a letter gives. No value is
// over one more than the one before it, so a place that has as much is passed by.
fn greater(a: usize, e: &[u16]) -> Option<Vec<u16>> {
    let mut row = least_row(e);
    for i in (0..e.len()).rev() {
        if i > 0 && e[i] == e[i - 1] + 1 {
            continue;
        }
        let values = by_letter(&row, e, i);
        if let Some(letter) = (0..a).filter(|&c| values[c] > e[i]).min_by_key(|&c| values[c]) {
            let mut next = e[..i].to_vec();
            row.truncate(i);
            next.push(values[letter]);
            row.push(b'a' + letter as u8);
            while next.len() < e.len() {
                let values = by_letter(&row, &next, next.len());
                let letter = (0..a).min_by_key(|&c| values[c]).unwrap();
                next.push(values[letter]);
                row.push(b'a' + letter as u8);
            }
            return Some(next);
        }
    }
    None
}

// Over one letter there is one row. Over more, a row of an `a` and then `b` alone has zeros alone, and nothing is less.
pub fn first(a: usize, n: usize) -> Vec<u16> {
    (0..n).map(|i| if a == 1 { i as u16 } else { 0 }).collect()
}

pub fn rebuild(a: usize, e: &[u16]) -> Outcome<u8> {
    let judged = judge(a, e);
    (judged, if judged.number == 0 { Some(least_row(e)) } else { None })
}

pub fn next(a: usize, e: &[u16]) -> Outcome<u16> {
    let judged = judge(a, e);
    if judged.number != 0 {
        return (judged, None);
    }
    match greater(a, e) {
        Some(next) => (done(0), Some(next)),
        None => (refused(9, 0), None),
    }
}
