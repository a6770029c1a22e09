// What the functions are tried with. All of it is the same in every run.
use super::plain;

pub const LETTERS: usize = 26;
pub const LIMIT: usize = 4096;

// Two bytes an echo, low byte first.
pub fn encode(e: &[u16]) -> Vec<u8> {
    let mut bytes = Vec::with_capacity(2 * e.len());
    for m in e {
        bytes.push((m % 256) as u8);
        bytes.push((m / 256) as u8);
    }
    bytes
}

// Numbers that look random.
pub struct Dice(pub u64);

impl Dice {
    pub fn below(&mut self, n: usize) -> usize {
        self.0 = self.0.wrapping_mul(6364136223846793005).wrapping_add(1442695040888963407);
        ((self.0 >> 33) as usize) % n
    }

    pub fn of<T: Copy>(&mut self, list: &[T]) -> T {
        list[self.below(list.len())]
    }

    // Most are short, some at the limit.
    pub fn length(&mut self) -> usize {
        match self.below(8) {
            0 => LIMIT - self.below(3),
            1 => self.below(LIMIT + 1),
            2 => self.below(600),
            _ => self.below(80),
        }
    }
}

// Sizes that only their full width tells from good ones, and the good ones' neighbours.
pub fn sizes() -> Vec<usize> {
    let mut sizes: Vec<usize> = (0..=40).collect();
    for wide in [1usize << 8, 1 << 16, 1 << 31, 1 << 32, 1 << 62, 1 << 63] {
        for near in [0, 1, 2, 3, 12, 26] {
            sizes.extend([wide - 1, wide + near, wide - near]);
        }
    }
    sizes.extend([LIMIT - 1, LIMIT, LIMIT + 1, 2 * LIMIT, usize::MAX - 1, usize::MAX]);
    sizes
}

// A few of them, for alphabets beside all else that may be wrong.
pub const ALPHABETS: [usize; 11] = [0, 1, 2, 3, 25, 26, 27, 259, (1 << 32) + 3, 1 << 63, usize::MAX];

// Lengths of rows and arrays on both sides of the limit; the last would be 5 in 16 bits.
pub const LENGTHS: [usize; 11] = [0, 1, 2, 5, 33, LIMIT - 1, LIMIT, LIMIT + 1, LIMIT + 2, 2 * LIMIT, 65541];

// Rooms for a list of n entries, the right one first.
pub fn rooms(n: usize) -> Vec<usize> {
    let mut rooms = vec![n, n + 1, n + 2, 2 * n + 3];
    rooms.extend([n.checked_sub(1), n.checked_sub(2), Some(n / 2), Some(0)].iter().flatten().filter(|&&room| room != n));
    rooms
}

// Every row of n of these cards.
pub fn each_row(cards: &[u8], n: usize, ask: &mut dyn FnMut(&[u8])) {
    let mut digits = vec![0; n];
    loop {
        let row: Vec<u8> = digits.iter().map(|&j: &usize| cards[j]).collect();
        ask(&row);
        match digits.iter().rposition(|&j| j + 1 < cards.len()) {
            Some(i) => {
                digits[i] += 1;
                digits[i + 1..].fill(0);
            }
            None => return,
        }
    }
}

fn fibonacci(n: usize) -> Vec<usize> {
    let (mut x, mut y) = (vec![1], vec![0]);
    while y.len() < n {
        let z = [&y[..], &x[..]].concat();
        x = y;
        y = z;
    }
    y.truncate(n);
    y
}

fn ruler(n: usize) -> Vec<usize> {
    (1..=n).map(|i: usize| i.trailing_zeros() as usize).collect()
}

fn runs(n: usize, run: usize) -> Vec<usize> {
    (0..n).map(|i| if i % run == run - 1 { 1 + i / run % 2 } else { 0 }).collect()
}

fn cards(letters: Vec<usize>) -> Vec<u8> {
    letters.into_iter().map(|letter| b'a' + letter as u8).collect()
}

// The kinds of the benchmark: random over two and 26 letters, all a, a.. then b, Fibonacci, ruler, runs of 15 a.
pub fn kinds(d: &mut Dice, n: usize) -> Vec<Vec<u8>> {
    let two = (0..n).map(|_| d.below(2)).collect();
    let many = (0..n).map(|_| d.below(LETTERS)).collect();
    let last = (0..n).map(|i| (i + 1 == n) as usize).collect();
    [two, many, vec![0; n], last, fibonacci(n), ruler(n), runs(n, 16)].into_iter().map(cards).collect()
}

// A row of one of eight kinds: random, few changes, one letter, periodic, Fibonacci, ruler, runs, a word and its powers.
pub fn row(d: &mut Dice, n: usize) -> Vec<u8> {
    let letters = d.of(&[1, 2, 2, 3, 4, 13, 26]);
    cards(match d.below(8) {
        0 => (0..n).map(|_| d.below(letters)).collect(),
        1 => (0..n).map(|_| if d.below(50) == 0 { d.below(letters) } else { 0 }).collect(),
        2 => vec![0; n],
        3 => {
            let word: Vec<usize> = (0..1 + d.below(40)).map(|_| d.below(letters)).collect();
            (0..n).map(|i| word[i % word.len()]).collect()
        }
        4 => fibonacci(n),
        5 => ruler(n),
        6 => runs(n, 2 + d.below(100)),
        _ => {
            let mut row: Vec<usize> = (0..1 + d.below(6)).map(|_| d.below(letters)).collect();
            while row.len() < n {
                let k = 1 + d.below(row.len());
                let part = row[..k].to_vec();
                row.push(d.below(letters));
                row.extend(part);
            }
            row.truncate(n);
            row
        }
    })
}

// The fewest letters, from `a` on, that have all cards of the row.
pub fn letters(row: &[u8]) -> usize {
    row.iter().max().map_or(1, |card| (card - b'a') as usize + 1)
}

// A value to damage index i with: near the true one, on the chain, far off, or any.
pub fn other(d: &mut Dice, e: &[u16], i: usize) -> u16 {
    match d.below(7) {
        0 => 0,
        1 => e[i].wrapping_add(1),
        2 => e[i].wrapping_sub(1),
        3 => d.below(65536) as u16,
        4 => d.below(i + 2) as u16,
        _ => {
            let mut c = if i == 0 { 0 } else { e[i - 1] as usize };
            for _ in 0..d.below(4) {
                if c > 0 {
                    c = e[c - 1] as usize;
                }
            }
            c as u16 + 1
        }
    }
}

// The array broken at index i, once for each number that can come there: zero, the values along the chain and some that are never possible are tried.
pub fn broken(a: usize, e: &[u16], i: usize) -> Vec<Vec<u16>> {
    let mut values = vec![0, i as u16 + 1, 65535];
    let mut c = if i == 0 { 0 } else { e[i - 1] as usize };
    while c > 0 && values.len() < 40 {
        c = e[c - 1] as usize;
        values.push(c as u16 + 1);
    }
    let mut numbers = Vec::new();
    let mut arrays = Vec::new();
    for value in values {
        let mut array = e.to_vec();
        array[i] = value;
        let judged = plain::judge(a, &array);
        if judged.place == i as u64 + 1 && !numbers.contains(&judged.number) {
            numbers.push(judged.number);
            arrays.push(array);
        }
    }
    arrays
}

// Cards that are outside the first A letters: the neighbours of the letters, a capital, both ends of a byte.
pub fn outside(a: usize) -> Vec<u8> {
    let mut cards = vec![96, b'A', 0, 255, 123];
    if a < LETTERS {
        cards.push(97 + a as u8);
    }
    cards
}
