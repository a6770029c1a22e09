// Each answer by the definition of its word, with slices compared as they lie and every row written down. It is slow, and for short inputs.
use super::calls::{done, refused, Answer, Outcome};
use std::collections::BTreeMap;
use std::ops::Bound::{Excluded, Unbounded};

// ---- rows

// The echo of the row's last card: the greatest k below its place such that the row's first k cards equal its last k.
pub fn echo(row: &[u8]) -> usize {
    let i = row.len();
    (0..i).rev().find(|&k| row[..k] == row[i - k..]).unwrap_or(0)
}

// The greatest k such that the k cards from index i on equal the first k.
fn reach(row: &[u8], i: usize) -> usize {
    (0..=row.len() - i).rev().find(|&k| row[i..i + k] == row[..k]).unwrap_or(0)
}

// For i from 2 start with b = e[i - 1]. One look compares card b + 1 with card i. Equal: stop. Unequal and b = 0: stop. Otherwise b becomes e[b].
fn looks(row: &[u8], e: &[u16]) -> usize {
    let card = |place: usize| row[place - 1];
    let e = |place: usize| e[place - 1] as usize;
    let mut looks = 0;
    for i in 2..=row.len() {
        let mut b = e(i - 1);
        loop {
            looks += 1;
            if card(b + 1) == card(i) || b == 0 {
                break;
            }
            b = e(b);
        }
    }
    looks
}

// The row's length less that of a border that is not empty, ascending.
fn periods(row: &[u8]) -> Vec<usize> {
    let n = row.len();
    (1..n).filter(|p| row[..n - p] == row[*p..]).collect()
}

// What a row's entries answer from.
#[derive(PartialEq, Debug)]
pub struct Lists {
    pub echoes: Vec<u16>,
    pub reach: Vec<u16>,
    pub periods: Vec<usize>,
    pub looks: usize,
}

pub fn lists(row: &[u8]) -> Lists {
    let echoes: Vec<u16> = (1..=row.len()).map(|i| echo(&row[..i]) as u16).collect();
    let looks = looks(row, &echoes);
    Lists { echoes, reach: (0..row.len()).map(|i| reach(row, i) as u16).collect(), periods: periods(row), looks }
}

// One record a line, fields parted by tabs; an empty list has no tab after its word.
pub fn sheet(a: usize, l: &Lists) -> Vec<u8> {
    let mut text = format!("sheet\t{}\t{}\necho", l.echoes.len(), a);
    l.echoes.iter().for_each(|m| text += &format!("\t{}", m));
    text += "\nreach";
    l.reach.iter().for_each(|k| text += &format!("\t{}", k));
    text += "\nperiods";
    l.periods.iter().for_each(|p| text += &format!("\t{}", p));
    text += &format!("\nlooks\t{}\n", l.looks);
    text.into_bytes()
}

// The greatest length at which the left row's end equals the right row's opening.
pub fn joining(left: &[u8], right: &[u8]) -> usize {
    (0..=left.len().min(right.len())).rev().find(|&k| left[left.len() - k..] == right[..k]).unwrap_or(0)
}

// ---- arrays

// Every array that some row over the alphabet has, by its length, each with the least of its rows.
pub struct Standing {
    a: usize,
    arrays: Vec<BTreeMap<Vec<u16>, Vec<u8>>>,
}

// The rows of one length, in dictionary order, with their echoes.
type Rows = Vec<(Vec<u8>, Vec<u16>)>;

fn one_card_more(rows: &Rows, letters: usize) -> Rows {
    let mut longer = Vec::new();
    for (row, e) in rows {
        for c in 0..letters {
            let (mut row, mut e) = (row.clone(), e.clone());
            row.push(b'a' + c as u8);
            e.push(echo(&row) as u16);
            longer.push((row, e));
        }
    }
    longer
}

impl Standing {
    // All lengths up to `most`. A row of n cards has at most n letters; named anew as they come, they are the first n, and the row is no greater.
    pub fn new(a: usize, most: usize) -> Standing {
        let mut rows: Rows = vec![(Vec::new(), Vec::new())];
        let mut arrays = Vec::new();
        for n in 0..=most {
            if n > 0 {
                rows = one_card_more(&rows, a.min(most));
            }
            let mut least = BTreeMap::new();
            for (row, e) in &rows {
                least.entry(e.clone()).or_insert_with(|| row.clone());
            }
            arrays.push(least);
        }
        Standing { a, arrays }
    }

    pub fn count(&self, n: usize) -> usize {
        self.arrays[n].len()
    }

    pub fn list(&self, n: usize) -> Vec<Vec<u16>> {
        self.arrays[n].keys().cloned().collect()
    }

    // The first prefix that no row has is bad.
    pub fn judge(&self, e: &[u16]) -> Answer {
        match (1..=e.len()).find(|&i| !self.arrays[i].contains_key(&e[..i])) {
            Some(i) => refused(number(self.a, &e[..i - 1], e[i - 1]), i),
            None => done(0),
        }
    }

    pub fn rebuild(&self, e: &[u16]) -> Outcome<u8> {
        (self.judge(e), self.arrays[e.len()].get(e).cloned())
    }

    pub fn next(&self, e: &[u16]) -> Outcome<u16> {
        let judged = self.judge(e);
        if judged.number != 0 {
            return (judged, None);
        }
        match self.arrays[e.len()].range::<[u16], _>((Excluded(e), Unbounded)).next() {
            Some((next, _)) => (done(0), Some(next.clone())),
            None => (refused(9, 0), None),
        }
    }
}

// The first place that the rules do not let stand.
pub fn judge_by_rules(a: usize, e: &[u16]) -> Answer {
    let number = |i: usize| number(a, &e[..i - 1], e[i - 1]);
    (1..=e.len()).find(|&i| number(i) != 0).map_or(done(0), |i| refused(number(i), i))
}

// The number of the value m behind the places of e, in the words of the rules, with lists for the words.
fn number(a: usize, e: &[u16], m: u16) -> u64 {
    let echo = |place: u16| e[place as usize - 1];
    if e.is_empty() {
        return if m == 0 { 0 } else { 5 };
    }
    let mut possible = Vec::new();
    let mut c = echo(e.len() as u16);
    possible.push(c + 1);
    while c > 0 {
        c = echo(c);
        possible.push(c + 1);
    }
    let hidden = |m: u16| possible.iter().any(|&p| p > m && echo(p) == m);
    let open = possible.iter().filter(|&&p| !hidden(p)).count();
    if m == 0 {
        return if open < a { 0 } else { 7 };
    }
    if !possible.contains(&m) {
        5
    } else if hidden(m) {
        6
    } else {
        0
    }
}
