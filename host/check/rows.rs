// The functions that read cards: echoes, reach, looks, sheet, guess and the two strips.
use super::calls::{done, fail, refused, Answer, Outcome, Tally};
use super::definitions::{self, Lists};
use super::inputs::{each_row, kinds, letters, outside, rooms, row, sizes, Dice, ALPHABETS, LENGTHS, LETTERS, LIMIT};
use super::plain;

// Rows up to this length are answered by the definitions, others by plain code.
const SHORT: usize = 24;

fn lists(row: &[u8]) -> Lists {
    if row.len() <= SHORT {
        definitions::lists(row)
    } else {
        plain::lists(row)
    }
}

// Plain code against the definitions.
fn held_row(row: &[u8]) {
    let (expected, got) = (definitions::lists(row), plain::lists(row));
    if expected != got {
        fail(&format!("plain lists of {:?}", row), &format!("{:?}", expected), &format!("{:?}", got));
    }
}

fn held_pair(left: &[u8], right: &[u8]) {
    let (expected, got) = (definitions::joining(left, right), plain::joining(left, right));
    if expected != got {
        fail(&format!("plain joining of {:?} and {:?}", left, right), &expected.to_string(), &got.to_string());
    }
}

// Every short row and every pair of the shortest, then some of a middle length.
pub fn held() {
    let mut pairs: Vec<Vec<u8>> = Vec::new();
    for (cards, most) in [(&b"a"[..], SHORT), (b"ab", 12), (b"abc", 7), (b"abcd", 5)] {
        for n in 0..=most {
            each_row(cards, n, &mut |row| {
                held_row(row);
                if n <= 5 {
                    pairs.push(row.to_vec());
                }
            });
        }
    }
    for left in &pairs {
        pairs.iter().for_each(|right| held_pair(left, right));
    }
    let mut d = Dice(3);
    for round in 0..400 {
        let row = row(&mut d, round / 2);
        held_row(&row);
        let (i, j) = (d.below(row.len() + 1), d.below(row.len() + 1));
        held_pair(&row[..i], &row[j..]);
        held_pair(&row, &[&row[i..], &row[..j]].concat());
    }
}

// The first of the numbers 1 to 4 that applies, in their order. The rows are looked at for 4 one behind the other.
fn refusal(a: usize, rows: &[&[u8]], matches: bool) -> Option<Answer> {
    if a < 1 || a > LETTERS {
        return Some(refused(1, 0));
    }
    if rows.iter().any(|row| row.len() > LIMIT) {
        return Some(refused(2, 0));
    }
    if !matches {
        return Some(refused(3, 0));
    }
    let bad = |row: &&[u8]| row.iter().position(|&card| (card as usize) < 97 || (card as usize) > 96 + a);
    rows.iter().find_map(bad).map(|i| refused(4, i + 1))
}

// ---- echoes, reach, looks and sheet of a row

struct Asked<'r> {
    a: usize,
    row: &'r [u8],
    // none where the row is refused
    lists: Option<Lists>,
}

fn asked(a: usize, row: &[u8]) -> Asked<'_> {
    let good = refusal(a, &[row], true).is_none();
    Asked { a, row, lists: if good { Some(lists(row)) } else { None } }
}

impl Asked<'_> {
    fn n(&self) -> usize {
        self.row.len()
    }

    // A list of the row into a buffer of so many entries.
    fn list(&self, room: usize, list: fn(&Lists) -> &Vec<u16>) -> Outcome<u16> {
        match refusal(self.a, &[self.row], room == self.n()) {
            Some(refusal) => (refusal, None),
            None => (done(0), self.lists.as_ref().map(|l| list(l).clone())),
        }
    }

    fn echoes(&self, t: &mut Tally, room: usize) {
        t.echoes(self.a, self.row, room, &self.list(room, |l| &l.echoes));
    }

    fn reach(&self, t: &mut Tally, room: usize) {
        t.reach(self.a, self.row, room, &self.list(room, |l| &l.reach));
    }

    fn looks(&self, t: &mut Tally) {
        let expected = refusal(self.a, &[self.row], true).unwrap_or_else(|| done(self.lists.as_ref().unwrap().looks));
        t.looks(self.a, self.row, expected);
    }

    // The sheet, where the row has one.
    fn text(&self) -> Option<Vec<u8>> {
        self.lists.as_ref().map(|l| definitions::sheet(self.a, l))
    }

    fn sheet(&self, t: &mut Tally, room: usize, text: &Option<Vec<u8>>) {
        let outcome = match (refusal(self.a, &[self.row], true), text) {
            (Some(refusal), _) => (refusal, None),
            (None, Some(text)) if text.len() <= room => (done(text.len()), Some(text.clone())),
            _ => (refused(8, 0), None),
        };
        t.sheet(self.a, self.row, room, &outcome);
    }

    // Each of the four, with buffers that fit.
    fn once(&self, t: &mut Tally) {
        self.echoes(t, self.n());
        self.reach(t, self.n());
        self.looks(t);
        let text = self.text();
        self.sheet(t, text.as_ref().map_or(100, Vec::len), &text);
    }

    // Each of the four, with buffers that fit and that do not. A sheet that is refused for its row is tried with all kinds of buffers too.
    fn every_room(&self, t: &mut Tally) {
        for room in rooms(self.n()) {
            self.echoes(t, room);
            self.reach(t, room);
        }
        self.looks(t);
        let text = self.text();
        for room in rooms(text.as_ref().map_or(100, Vec::len)) {
            self.sheet(t, room, &text);
        }
        self.sheet(t, 61500, &text);
    }
}

// Every short row over few letters, over as many and over more; then every short row with cards below and above the alphabet.
fn short_rows(t: &mut Tally, more: usize) {
    for (cards, most) in [(&b"a"[..], 9), (b"ab", 8 + more), (b"abc", 5 + more), (b"abcd", 3 + more)] {
        for n in 0..=most {
            each_row(cards, n, &mut |row| {
                asked(cards.len(), row).every_room(t);
                asked(LETTERS, row).once(t);
            });
        }
    }
    for (a, cards) in [(1, &b"`ab"[..]), (2, b"`abc"), (2, b"abB\0"), (3, b"acd\xff"), (26, b"`az{")] {
        for n in 0..=3 + more {
            each_row(cards, n, &mut |row| asked(a, row).once(t));
        }
    }
}

// Each byte over each alphabet, at the first, a middle and the last place.
fn each_card(t: &mut Tally) {
    for a in 1..=LETTERS {
        for card in 0..=255 {
            for mut row in [b"a".to_vec(), b"aaa".to_vec(), b"aaaaa".to_vec()] {
                let i = [0, 2, 1][row.len() / 2];
                row[i] = card;
                asked(a, &row).once(t);
                let good = vec![b'a'; row.len()];
                guess(t, a, &row, &good);
                guess(t, a, &good, &row);
            }
        }
    }
}

// Any A beside short rows, good and bad.
fn each_size(t: &mut Tally) {
    for a in sizes() {
        for row in [&b""[..], b"a", b"aab", b"abcxyz", b"a{", b"aB"] {
            asked(a, row).every_room(t);
            for other in [&b""[..], b"a", b"abb", b"`bb", b"zyxcba"] {
                guess(t, a, row, other);
            }
        }
    }
}

// A row of this length with cards that are not over the alphabet, at places that are chosen.
fn hostile(d: &mut Dice, a: usize, n: usize) -> Vec<Vec<u8>> {
    let good: Vec<u8> = (0..n).map(|_| b'a' + d.below(a.clamp(1, 3)) as u8).collect();
    let mut rows = vec![good.clone()];
    if n > 0 && n <= 2 * LIMIT {
        for card in outside(a) {
            for i in [0, n / 2, n - 1] {
                let mut row = good.clone();
                row[i] = card;
                row[n - 1] = if d.below(2) == 0 { card } else { row[n - 1] };
                rows.push(row);
            }
        }
    }
    rows
}

// All that may be wrong with a row, together.
fn hostile_rows(t: &mut Tally, d: &mut Dice) {
    for a in ALPHABETS {
        for n in LENGTHS {
            for row in hostile(d, a, n) {
                asked(a, &row).every_room(t);
            }
        }
    }
}

// Rows of one kind each, also over too few letters, and with a bad card somewhere.
fn long_rows(t: &mut Tally, d: &mut Dice, rounds: usize) {
    for n in [1, 2, 3, 15, 16, 17, 31, 32, 33, 63, 64, 65, 255, 256, 257, 1000, 2047, 2048, 2049, LIMIT - 1, LIMIT] {
        for row in kinds(d, n) {
            asked(letters(&row), &row).every_room(t);
            asked(LETTERS, &row).once(t);
            asked(letters(&row) - 1, &row).once(t);
        }
    }
    for _ in 0..rounds {
        let n = d.length();
        let mut row = row(d, n);
        let a = letters(&row) + d.below(LETTERS + 1 - letters(&row));
        asked(a, &row).once(t);
        if n > 0 {
            let i = d.below(n);
            row[i] = d.of(&outside(a));
            asked(a, &row).once(t);
        }
    }
}

// ---- guess

fn guess_expected(a: usize, hidden: &[u8], guess: &[u8]) -> Answer {
    refusal(a, &[hidden, guess], hidden.len() == guess.len()).unwrap_or_else(|| {
        let (e, f) = (lists(hidden).echoes, lists(guess).echoes);
        (0..e.len()).find(|&i| e[i] != f[i]).map_or(done(0), |i| refused(10, i + 1))
    })
}

fn guess(t: &mut Tally, a: usize, hidden: &[u8], guess: &[u8]) {
    t.guess(a, hidden, guess, guess_expected(a, hidden, guess));
}

// Every pair of short rows, of one length and of two, with good cards and bad ones.
fn short_guesses(t: &mut Tally, more: usize) {
    for (a, cards, most) in [(2, &b"ab"[..], 4 + more), (3, b"abc", 2 + more), (2, b"`abc", more), (26, b"az{", more)] {
        let mut rows: Vec<Vec<u8>> = Vec::new();
        for n in 0..=most {
            each_row(cards, n, &mut |row| rows.push(row.to_vec()));
        }
        for hidden in &rows {
            for g in rows.iter().filter(|g| g.len() == hidden.len() || g.len() + hidden.len() <= 4) {
                guess(t, a, hidden, g);
            }
        }
    }
}

// All that may be wrong with two rows, together.
fn hostile_guesses(t: &mut Tally, d: &mut Dice) {
    for a in ALPHABETS {
        for n in LENGTHS {
            let rows = hostile(d, a, n);
            for m in [n, n + 1, n.saturating_sub(1), 0, 5, LIMIT, LIMIT + 1] {
                let others = hostile(d, a, m);
                for _ in 0..12 {
                    let (hidden, other) = (d.below(rows.len()), d.below(others.len()));
                    guess(t, a, &rows[hidden], &others[other]);
                    guess(t, a, &rows[0], &others[other]);
                }
                guess(t, a, &rows[0], &others[0]);
            }
        }
    }
}

// Rows of the benchmark's kinds, with one card changed at chosen places.
fn changed_guesses(t: &mut Tally, d: &mut Dice) {
    for n in [1, 2, 33, 900, LIMIT - 1, LIMIT] {
        for hidden in kinds(d, n) {
            for i in [0, 1, n / 2, n.saturating_sub(2), n - 1] {
                for card in [b'a', b'b', b'z', b'{'] {
                    let mut changed = hidden.clone();
                    changed[i.min(n - 1)] = card;
                    guess(t, LETTERS, &hidden, &changed);
                    guess(t, LETTERS, &changed, &hidden);
                }
            }
        }
    }
}

// The hidden row itself, by other letters, with one card changed, with a bad card in either or in both, and of another kind.
fn long_guesses(t: &mut Tally, d: &mut Dice, rounds: usize) {
    for _ in 0..rounds {
        let n = 1 + d.length().min(LIMIT - 1);
        let hidden = row(d, n);
        let renamed: Vec<u8> = hidden.iter().map(|card| 219 - card).collect();
        guess(t, LETTERS, &hidden, &renamed);
        t.guess_within(LETTERS, &hidden, 0..n, 0..n, guess_expected(LETTERS, &hidden, &hidden));
        let (i, j) = (d.below(n), d.below(n));
        let mut changed = hidden.clone();
        changed[i] = b'a' + d.below(4) as u8;
        guess(t, LETTERS, &hidden, &changed);
        guess(t, d.of(&[1, 2, 3, 4, 13]), &hidden, &changed);
        changed[j] = d.of(&outside(LETTERS));
        guess(t, LETTERS, &hidden, &changed);
        guess(t, LETTERS, &changed, &hidden);
        let other = row(d, n);
        guess(t, LETTERS, &hidden, &other);
        let k = d.below(n / 2 + 1);
        t.guess_within(LETTERS, &hidden, 0..n - k, k..n, guess_expected(LETTERS, &hidden[..n - k], &hidden[k..]));
    }
}

// ---- closing

fn closing(t: &mut Tally, row: &[u8]) {
    let k = if row.len() > LIMIT {
        0
    } else if row.len() <= SHORT {
        definitions::echo(row)
    } else {
        *plain::echoes(row).0.last().unwrap() as usize
    };
    t.closing(row, done(k));
}

fn closings(t: &mut Tally, d: &mut Dice, more: usize, rounds: usize) {
    for (cards, most) in [(&b"ab"[..], 9 + more), (b"abc", 5 + more), (b"\0\xffAa", 3 + more)] {
        for n in 0..=most {
            each_row(cards, n, &mut |row| closing(t, row));
        }
    }
    for card in 0..=255 {
        for other in 0..=255 {
            closing(t, &[card, other]);
        }
        closing(t, &[card, 0, card, 255, card]);
    }
    for n in LENGTHS {
        for mut row in kinds(d, n) {
            closing(t, &row);
            if n > 0 {
                row[n - 1] = 200;
                closing(t, &row);
            }
        }
    }
    for _ in 0..rounds {
        let n = d.length();
        let mut row = row(d, n);
        closing(t, &row);
        if n > 0 {
            row[d.below(n)] = d.below(256) as u8;
            closing(t, &row);
        }
    }
}

// ---- joining

fn joining_expected(left: &[u8], right: &[u8]) -> Answer {
    done(if left.len() > LIMIT || right.len() > LIMIT {
        0
    } else if left.len() <= SHORT && right.len() <= SHORT {
        definitions::joining(left, right)
    } else {
        plain::joining(left, right)
    })
}

fn joining(t: &mut Tally, left: &[u8], right: &[u8]) {
    t.joining(left, right, joining_expected(left, right));
}

fn short_joinings(t: &mut Tally, more: usize) {
    for (cards, most) in [(&b"ab"[..], 4 + more), (b"abc", 2 + more), (b"\0\xffAa", more)] {
        let mut rows: Vec<Vec<u8>> = Vec::new();
        for n in 0..=most {
            each_row(cards, n, &mut |row| rows.push(row.to_vec()));
        }
        for left in &rows {
            for right in &rows {
                joining(t, left, right);
            }
        }
    }
    for card in 0..=255 {
        for other in [card, 0, 97, 255 - card] {
            joining(t, &[7, card], &[other, 7]);
        }
    }
}

// Rows on both sides of the limit, either of them or both; the whole of either; the same slice twice; two parts of one slice.
fn long_joinings(t: &mut Tally, d: &mut Dice, rounds: usize) {
    for n in LENGTHS {
        for m in LENGTHS {
            joining(t, &vec![b'a'; n], &vec![b'a'; m]);
        }
    }
    for _ in 0..rounds {
        let n = 1 + d.length().min(LIMIT - 1);
        let x = row(d, n);
        let (i, j) = (d.below(n + 1), d.below(n + 1));
        let other = row(d, j);
        joining(t, &x, &other);
        joining(t, &x, &x[i..]);
        joining(t, &x[..i], &x);
        let right = [&x[i..], &other[..j.min(i)]].concat();
        joining(t, &x, &right);
        let mut broken = right.clone();
        if !broken.is_empty() {
            let place = d.below(broken.len());
            broken[place] = d.below(256) as u8;
        }
        joining(t, &x, &broken);
        t.joining_within(&x, 0..n, 0..n, joining_expected(&x, &x));
        t.joining_within(&x, 0..i, j..n, joining_expected(&x[..i], &x[j..]));
        t.joining_within(&x, i..n, 0..j, joining_expected(&x[i..], &x[..j]));
    }
}

// ---- all of them

pub fn check(t: &mut Tally, d: &mut Dice, long: bool) {
    let (more, rounds) = if long { (3, 8000) } else { (1, 400) };
    short_rows(t, more);
    each_card(t);
    each_size(t);
    short_guesses(t, more);
    short_joinings(t, more);
    t.edges = true;
    hostile_rows(t, d);
    hostile_guesses(t, d);
    long_rows(t, d, rounds);
    changed_guesses(t, d);
    long_guesses(t, d, rounds);
    closings(t, d, more, rounds);
    long_joinings(t, d, rounds);
    t.edges = false;
}
