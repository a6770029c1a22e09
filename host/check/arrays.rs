// The functions of arrays: judge, rebuild, first, next and count.
use super::calls::{done, fail, refused, Answer, Outcome, Tally};
use super::definitions::{self, Standing};
use super::inputs::{broken, encode, kinds, letters, other, rooms, row, sizes, Dice, ALPHABETS, LENGTHS, LETTERS, LIMIT};
use super::plain;

const COUNT_LIMIT: usize = 20;

// The first of the numbers 1 to 3 that applies, in their order.
fn refusal(a: usize, n: usize, matches: bool) -> Option<Answer> {
    if a < 1 || a > LETTERS {
        Some(refused(1, 0))
    } else if n > LIMIT {
        Some(refused(2, 0))
    } else if !matches {
        Some(refused(3, 0))
    } else {
        None
    }
}

fn or<T>(refusal: Option<Answer>, outcome: impl FnOnce() -> Outcome<T>) -> Outcome<T> {
    refusal.map_or_else(outcome, |refusal| (refusal, None))
}

fn echoes(row: &[u8]) -> Vec<u16> {
    plain::echoes(row).0
}

// ---- judge, rebuild and next, by the definition

// Plain code against the definitions.
fn held<T: PartialEq + std::fmt::Debug>(what: &str, a: usize, e: &[u16], expected: &Outcome<T>, got: &Outcome<T>) {
    if expected != got {
        fail(&format!("plain {} of {:?} over {}", what, e, a), &format!("{:?}", expected), &format!("{:?}", got));
    }
}

fn short_array(t: &mut Tally, a: usize, e: &[u16], standing: &Standing, judged_only: bool) {
    let expected = standing.judge(e);
    t.array(a, e, expected);
    let row = standing.rebuild(e);
    held("row", a, e, &row, &plain::rebuild(a, e));
    if !judged_only || expected.number == 0 {
        let next = standing.next(e);
        held("next", a, e, &next, &plain::next(a, e));
        t.rebuild(a, e, e.len(), &row);
        t.next(a, e, &next);
    }
}

// All arrays of n places, each value up to one more than its place, and some far greater. The longest of those that do not stand are judged only.
fn short_arrays(t: &mut Tally, a: usize, n: usize, standing: &Standing) {
    let mut e = vec![0u16; n];
    loop {
        short_array(t, a, &e, standing, n > 6);
        let mut i = n;
        while i > 0 && e[i - 1] as usize == i {
            e[i - 1] = 0;
            i -= 1;
        }
        if i == 0 {
            return;
        }
        e[i - 1] += 1;
        for far in [256, 257, 4095, 4096, 65535] {
            let kept = std::mem::replace(&mut e[i - 1], far);
            short_array(t, a, &e, standing, n > 5);
            e[i - 1] = kept;
        }
    }
}

fn by_definition(t: &mut Tally, most: usize) {
    for a in 1..=LETTERS {
        let most = if a <= 5 { most } else { most - 2 };
        let standing = Standing::new(a, most);
        for n in 0..=most {
            short_arrays(t, a, n, &standing);
            t.count(a, n, done(standing.count(n)));
            let first = standing.list(n).remove(0);
            held("first", a, &[], &(done(0), Some(first.clone())), &(done(0), Some(plain::first(a, n))));
            t.first(a, n, n, &(done(0), Some(first)));
        }
    }
}

// Plain code on arrays of a middle length: judged as the rules have it, the rebuilt row has the array's echoes, and the next array stands and is greater.
fn held_longer(rounds: usize) {
    let mut d = Dice(5);
    for round in 0..rounds {
        let n = round % 60;
        let mut e = echoes(&row(&mut d, n));
        if n > 0 && d.below(2) == 0 {
            let i = d.below(n);
            e[i] = other(&mut d, &e, i);
        }
        let a = 1 + d.below(5);
        let judged: Outcome<u8> = (definitions::judge_by_rules(a, &e), None);
        held("judgement", a, &e, &judged, &(plain::judge(a, &e), None));
        if let Some(row) = plain::rebuild(a, &e).1 {
            held("row's echoes", a, &e, &(done(0), Some(e.clone())), &(done(0), Some(definitions::lists(&row).echoes)));
        }
        if let Some(next) = plain::next(a, &e).1 {
            held("judgement of the next", a, &e, &(done(0), None::<Vec<u8>>), &(definitions::judge_by_rules(a, &next), None));
            held("order of the next", a, &e, &(done(1), None::<Vec<u8>>), &(done((next > e) as usize), None));
        }
    }
}

// ---- first and next through a whole listing

// The listing of one length, written down from all rows; and one by plain code, whose length is the count.
fn listings(t: &mut Tally, most: usize, places: usize) {
    for a in 1..=4 {
        let standing = Standing::new(a, most);
        let list = standing.list(most);
        t.first(a, most, most, &(done(0), Some(list[0].clone())));
        for (i, e) in list.iter().enumerate() {
            let next = list.get(i + 1).map_or((refused(9, 0), None), |next| (done(0), Some(next.clone())));
            t.next(a, e, &next);
            t.rebuild(a, e, most, &standing.rebuild(e));
        }
    }
    for a in [2, 3, 4, 5, 26] {
        let mut e = plain::first(a, places);
        let mut count = 1;
        loop {
            let next = plain::next(a, &e);
            t.next(a, &e, &next);
            match next.1 {
                Some(next) => e = next,
                None => break,
            }
            count += 1;
        }
        t.count(a, places, done(count));
    }
}

// ---- long arrays, by plain code

fn judged(t: &mut Tally, a: usize, e: &[u16]) {
    t.array(a, e, plain::judge(a, e));
}

fn all_three(t: &mut Tally, a: usize, e: &[u16]) {
    judged(t, a, e);
    t.rebuild(a, e, e.len(), &plain::rebuild(a, e));
    t.next(a, e, &plain::next(a, e));
}

// Standing arrays, over enough letters and over too few, and the same damaged. Most are judged only.
fn long_arrays(t: &mut Tally, d: &mut Dice, rounds: usize) {
    for round in 0..rounds {
        let n = d.length();
        let mut e = echoes(&row(d, n));
        let any = 1 + d.below(26);
        let a = d.of(&[1, 2, 3, 4, 5, 12, 13, 26, any]);
        let ask: fn(&mut Tally, usize, &[u16]) = if round % 4 == 0 { all_three } else { judged };
        ask(t, a, &e);
        for _ in 0..2 {
            if n > 0 {
                let i = if d.below(3) == 0 { n - 1 } else { d.below(n) };
                let kept = e[i];
                e[i] = other(d, &e, i);
                ask(t, a, &e);
                e[i] = kept;
            }
        }
    }
}

// Each place of one array damaged in turn.
fn each_place(t: &mut Tally, d: &mut Dice, arrays: usize) {
    for _ in 0..arrays {
        let n = 200 + d.below(400);
        let e = echoes(&row(d, n));
        for i in 0..n {
            let mut f = e.clone();
            f[i] = other(d, &e, i);
            judged(t, 26, &f);
            judged(t, 2, &f);
            if i % 16 == 0 {
                all_three(t, 3, &f);
            }
        }
    }
}

// The kinds of the benchmark, whole and broken at chosen places, once for each number that can come there.
fn long_kinds(t: &mut Tally, d: &mut Dice) {
    for n in [1, 2, 3, 15, 16, 17, 31, 32, 33, 64, 257, 900, 2048, LIMIT - 1, LIMIT] {
        for row in kinds(d, n) {
            let e = echoes(&row);
            for a in [letters(&row), 2, LETTERS] {
                all_three(t, a, &e);
                for i in [0, 1, n / 3, n / 2, n - 2, n - 1] {
                    for e in broken(a, &e, i.min(n - 1)) {
                        all_three(t, a, &e);
                    }
                }
            }
        }
    }
}

// ---- refusals

// Any A beside any n beside any number of bytes, all of them zero: 1, then 2, then 3, then the judgement of zeros. The same for the first array and its buffer,
// and any A beside arrays of every number.
fn refusals(t: &mut Tally) {
    let bytes = vec![0u8; 2 * LIMIT + 4];
    for &a in &sizes() {
        for &n in &sizes() {
            for length in [0, 1, 2, 3, 4, 5, 24, 51, 52, 53, 2 * LIMIT - 1, 2 * LIMIT, 2 * LIMIT + 1, 2 * LIMIT + 2] {
                let expected = or(refusal(a, n, n <= LIMIT && length == 2 * n), || (plain::judge(a, &vec![0; n]), None::<Vec<u8>>));
                t.judge(a, n, &bytes[..length], expected.0);
            }
            for room in [0, 1, 2, 12, 26, LIMIT, LIMIT + 1] {
                first(t, a, n, room);
            }
        }
        for e in [&[][..], &[0], &[0, 0], &[0, 1], &[0, 2], &[0, 1, 1], &[0, 0, 1, 0, 0]] {
            hostile_array(t, a, e);
        }
    }
}

fn first(t: &mut Tally, a: usize, n: usize, room: usize) {
    t.first(a, n, room, &or(refusal(a, n, room == n), || (done(0), Some(plain::first(a, n)))));
}

fn firsts(t: &mut Tally) {
    for a in ALPHABETS {
        for n in (0..70).chain(LENGTHS) {
            for room in rooms(n) {
                first(t, a, n, room);
            }
        }
    }
}

fn hostile_array(t: &mut Tally, a: usize, e: &[u16]) {
    let n = e.len();
    let bytes = encode(e);
    for n in rooms(n) {
        t.judge(a, n, &bytes, or(refusal(a, n, bytes.len() == 2 * n), || (plain::judge(a, e), None::<Vec<u8>>)).0);
    }
    for room in rooms(n) {
        t.rebuild(a, e, room, &or(refusal(a, n, room == n), || plain::rebuild(a, e)));
    }
    t.next(a, e, &or(refusal(a, n, true), || plain::next(a, e)));
}

// All that may be wrong with an array, together: its length, its buffer, and echoes of every number at places that are chosen, two of them at once.
fn hostile_arrays(t: &mut Tally, d: &mut Dice) {
    for a in ALPHABETS {
        for n in LENGTHS {
            let good = row(d, n);
            let e = echoes(&good[..n.min(LIMIT)]);
            let e = [&e[..], &vec![0; n - e.len()]].concat();
            hostile_array(t, a, &e);
            hostile_array(t, a, &vec![0; n]);
            for i in [0, 1, n / 2, n.saturating_sub(1)] {
                if i < n {
                    let mut e = e.clone();
                    e[i] = 65535;
                    hostile_array(t, a, &e);
                    e[n - 1] = n as u16;
                    hostile_array(t, a, &e);
                }
            }
            for i in [0, 1, n / 2, n.saturating_sub(1)] {
                if i < n && n <= LIMIT && a > 0 && a <= LETTERS {
                    for mut e in broken(a, &e, i) {
                        hostile_array(t, a, &e);
                        e[n - 1] = d.below(65536) as u16;
                        hostile_array(t, a, &e);
                    }
                }
            }
        }
    }
}

// ---- count

// Depth first over all values, each judged by the paper.
fn count_by_paper(y: &mut Vec<usize>, v: &mut [bool], a: usize, n: usize) -> usize {
    let i = y.len();
    if i > n {
        return 1;
    }
    let mut total = 0;
    for m in 0..i {
        y.push(m);
        if (i == 1 && m == 0) || (i > 1 && plain::valid(y, v, i, a) == 0) {
            total += count_by_paper(y, v, a, n);
        }
        y.pop();
    }
    total
}

// Of the arrays with n places, how many stand over l letters and over no fewer.
type Fewest = [[usize; LETTERS + 1]; COUNT_LIMIT + 1];

// Depth first over all values, each judged by the paper: y, which stands over so many letters and no fewer, and all that is behind it up to `most` places.
// A zero is valid over one letter more than there are valid values above 0, and over no fewer.
fn fewest_by_paper(y: &mut Vec<usize>, v: &mut [bool], letters: usize, most: usize, tally: &mut Fewest) {
    let i = y.len();
    tally[i - 1][letters] += 1;
    if i > most {
        return;
    }
    for m in 0..i {
        y.push(m);
        let needed = if i == 1 {
            1
        } else if m == 0 {
            letters.max(plain::extensions(y, v, i) + 1)
        } else if plain::valid(y, v, i, LETTERS) == 0 {
            letters
        } else {
            LETTERS + 1
        };
        if needed <= LETTERS {
            fewest_by_paper(y, v, needed, most, tally);
        }
        y.pop();
    }
}

// The counts of all alphabets at once up to n = most, and those up to `counted` once more, an alphabet at a time. What is counted here at n = most over 26, 3, 2
// and 1 letters is printed in the form of crates/cases_listing/stdout.
fn counts(t: &mut Tally, counted: usize, most: usize) {
    for a in sizes() {
        for n in sizes() {
            if a == 0 || a > LETTERS {
                t.count(a, n, refused(1, 0));
            } else if n > COUNT_LIMIT {
                t.count(a, n, refused(2, 0));
            } else if n <= counted && a < 6 {
                t.count(a, n, done(count_by_paper(&mut vec![0], &mut [false; 32], a, n)));
            }
        }
    }
    for n in 1..=COUNT_LIMIT {
        t.count(1, n, done(1));
        t.count(2, n, done(1 << (n - 1)));
    }
    let mut tally = [[0; LETTERS + 1]; COUNT_LIMIT + 1];
    fewest_by_paper(&mut vec![0], &mut [false; 32], 0, most, &mut tally);
    let count = |a: usize, n: usize| tally[n][..=a].iter().sum::<usize>();
    for a in 1..=LETTERS {
        for n in 0..=most {
            t.count(a, n, done(count(a, n)));
        }
    }
    for a in [26, 3, 2, 1] {
        println!("n {}, A {}\t0\t0\t{}", most, a, count(a, most));
    }
}

// ---- all of them

pub fn check(t: &mut Tally, d: &mut Dice, long: bool) {
    held_longer(6000);
    by_definition(t, if long { 7 } else { 6 });
    listings(t, if long { 8 } else { 6 }, if long { 11 } else { 8 });
    refusals(t);
    each_place(t, d, if long { 300 } else { 30 });
    long_arrays(t, d, if long { 100_000 } else { 10_000 });
    t.edges = true;
    firsts(t);
    hostile_arrays(t, d);
    long_kinds(t, d);
    t.edges = false;
    counts(t, if long { 13 } else { 11 }, if long { COUNT_LIMIT } else { 14 });
}
