// The benchmark: every function of include/claybobbin.h beside plain Rust for the same work (host/plain.rs), in one program, and the stack that each takes. It
// prints the tables of docs/MEASURED.md and judges nothing; it stops only where the two sides of a pair differ in what they answer or write.
// The plain side is handed its echoes as numbers and the tables that it works in ready; the library's side is timed through the C function, so decoding
// the bytes and clearing its tables is in its time.
// Each figure is the median of many runs in which the two sides take turns, in processor time, so that other programs on the machine disturb it less.
// Every buffer was written and read before the first run that counts. `bench ROUNDS` takes that many turns, `bench` alone 101.
mod plain;
use std::ffi::c_void;

extern "C" {
    fn clock_gettime(clock: i32, time: *mut [i64; 2]) -> i32;
    fn pthread_attr_init(attributes: *mut Attributes) -> i32;
    fn pthread_attr_setstack(attributes: *mut Attributes, stack: *mut c_void, size: usize) -> i32;
    fn pthread_create(thread: *mut usize, attributes: *const Attributes, start: extern "C" fn(*mut c_void) -> *mut c_void, argument: *mut c_void) -> i32;
    fn pthread_join(thread: usize, answer: *mut *mut c_void) -> i32;
    fn claybobbin_echoes(a: usize, row: *const u8, row_length: usize, out: *mut u16, out_length: usize) -> u64;
    fn claybobbin_reach(a: usize, row: *const u8, row_length: usize, out: *mut u16, out_length: usize) -> u64;
    fn claybobbin_looks(a: usize, row: *const u8, row_length: usize) -> u64;
    fn claybobbin_judge(a: usize, n: usize, bytes: *const u8, length: usize) -> u64;
    fn claybobbin_rebuild(a: usize, e: *const u16, e_length: usize, row: *mut u8, row_length: usize) -> u64;
    fn claybobbin_count(a: usize, n: usize) -> u64;
    fn claybobbin_first(a: usize, n: usize, out: *mut u16, out_length: usize) -> u64;
    fn claybobbin_next(a: usize, e: *mut u16, e_length: usize) -> u64;
    fn claybobbin_sheet(a: usize, row: *const u8, row_length: usize, buffer: *mut u8, buffer_length: usize) -> u64;
    fn claybobbin_guess(a: usize, hidden: *const u8, hidden_length: usize, guess: *const u8, guess_length: usize) -> u64;
    fn claybobbin_closing(row: *const u8, row_length: usize) -> u64;
    fn claybobbin_joining(left: *const u8, left_length: usize, right: *const u8, right_length: usize) -> u64;
}

// The C library's pthread_attr_t on x86-64 has 56 bytes.
type Attributes = [u64; 7];

const LENGTHS: [usize; 3] = [4096, 2048, 1024];
const SHEET_LIMIT: usize = 61500;

fn judge(a: usize, bytes: &[u8]) -> u64 {
    unsafe { claybobbin_judge(a, bytes.len() / 2, bytes.as_ptr(), bytes.len()) }
}

fn count(a: usize, n: usize) -> u64 {
    unsafe { claybobbin_count(a, n) }
}

// How an answer holds a value, and the place where a guess differs.
fn value(k: usize) -> u64 {
    (k as u64) << 24
}

fn differs(place: usize) -> u64 {
    if place == 0 {
        0
    } else {
        10 + 256 * place as u64
    }
}

// ---- kinds of row

fn random_row(letters: u64, n: usize) -> Vec<u8> {
    let mut state = 88172645463325252u64;
    let mut row = Vec::new();
    for _ in 0..n {
        state ^= state << 13;
        state ^= state >> 7;
        state ^= state << 17;
        row.push((state >> 33) as u8 % letters as u8);
    }
    row
}

fn fibonacci_row(n: usize) -> Vec<u8> {
    let (mut x, mut y) = (vec![0u8], vec![0u8, 1]);
    while y.len() < n {
        let z = [&y[..], &x[..]].concat();
        x = y;
        y = z;
    }
    y[..n].to_vec()
}

fn ruler_row(n: usize) -> Vec<u8> {
    (1..=n).map(|i| i.trailing_zeros() as u8).collect()
}

// One a and b, two a and b, three a and b, and on.
fn ramp_row(n: usize) -> Vec<u8> {
    (1..).flat_map(|k| (0..=k).map(move |j| (j == k) as u8)).take(n).collect()
}

// All a, but b at one place, from 0.
fn lone_row(n: usize, place: usize) -> Vec<u8> {
    (0..n).map(|i| (i == place) as u8).collect()
}

fn runs_row(n: usize) -> Vec<u8> {
    (0..n).map(|i| if i % 16 == 15 { (i / 16 % 2 + 1) as u8 } else { 0 }).collect()
}

fn echoes(row: &[u8]) -> Vec<u16> {
    let mut e = vec![0u16; row.len() + 1];
    plain::failure(row, &mut e);
    e
}

fn encode(y: &[u16]) -> Vec<u8> {
    y[1..].iter().flat_map(|&m| m.to_le_bytes().to_vec()).collect()
}

// One kind of row, of one length: its name, its alphabet, what is lent of it. The arrays have place i at index i.
struct Kind {
    name: &'static str,
    letters: usize,
    row: Vec<u8>,
    // the letters the other way round: another row with the same echoes, so a guess that is right
    renamed: Vec<u8>,
    // the left row of the joining strip, whose right row is the row itself
    backwards: Vec<u8>,
    echoes: Vec<u16>,
    // the echoes with the least value at the last place: the next array changes that place alone
    one: Vec<u16>,
    // the echoes of the kind's row of 16 cards, again and again: behind the second time each is the greatest that stands, so the next array changes nearly all
    most: Vec<u16>,
}

fn kind(name: &'static str, letters: usize, n: usize, make: impl Fn(usize) -> Vec<u8>) -> Kind {
    let lettered = |n: usize| -> Vec<u8> { make(n).iter().map(|c| c + b'a').collect() };
    let row = lettered(n);
    let renamed = row.iter().map(|c| b'a' + (letters as u8 - 1 - (c - b'a'))).collect();
    let backwards = row.iter().rev().copied().collect();
    let e = echoes(&row);
    let mut one = e.clone();
    one[n] = plain::least_value(&e, &mut vec![false; n + 2], n, letters) as u16;
    let most = echoes(&lettered(16).into_iter().cycle().take(n).collect::<Vec<u8>>());
    Kind { name, letters, row, renamed, backwards, echoes: e, one, most }
}

// They live as long as the program.
fn kinds(n: usize) -> &'static [Kind] {
    Box::leak(Box::new([
        kind("random, 2 letters", 2, n, |n| random_row(2, n)),
        kind("random, 3 letters", 3, n, |n| random_row(3, n)),
        kind("random, 5 letters", 5, n, |n| random_row(5, n)),
        kind("random, 26 letters", 26, n, |n| random_row(26, n)),
        kind("all a", 1, n, |n| lone_row(n, n)),
        kind("a.. then b", 2, n, |n| lone_row(n, n - 1)),
        kind("a.. b a..", 2, n, |n| lone_row(n, n / 2)),
        kind("ab aab aaab ..", 2, n, ramp_row),
        kind("runs of 15 a", 3, n, runs_row),
        kind("Fibonacci", 2, n, fibonacci_row),
        kind("ruler", 13, n, ruler_row),
    ]))
}

// The array broken at its last place, once for each number that can come there, by the least value that has it, whose walk is the longest: zero (7), the
// least value that is not possible (5), the least possible one that is hidden (6).
fn breaks(k: &Kind) -> Vec<Vec<u16>> {
    let n = k.echoes.len() - 1;
    let mut possible = vec![k.echoes[n - 1] + 1];
    while possible[possible.len() - 1] > 1 {
        possible.push(k.echoes[possible[possible.len() - 1] as usize - 1] + 1);
    }
    possible.reverse();
    let mut bytes = encode(&k.echoes);
    let mut number = |m: u16| {
        bytes[2 * n - 2..].copy_from_slice(&m.to_le_bytes());
        judge(k.letters, &bytes) & 255
    };
    let other = (1..).find(|m| possible.binary_search(m).is_err());
    let hidden = possible.into_iter().find(|&m| number(m) == 6);
    let broken = [Some(0), other, hidden].into_iter().flatten().filter(|&m| number(m) != 0);
    broken.map(|m| [&k.echoes[..n], &[m]].concat()).collect()
}

// ---- the two sides of each function

// What a call may write: numbers from place 1 on and bytes, which are compared, and the tables that the plain side is handed ready.
struct Room {
    numbers: Vec<u16>,
    bytes: Vec<u8>,
    e: Vec<u16>,
    f: Vec<u16>,
    v: Vec<bool>,
}

fn room(n: usize) -> Room {
    Room { numbers: vec![7; n + 1], bytes: vec![7; SHEET_LIMIT], e: vec![0; n + 1], f: vec![0; n + 1], v: vec![false; n + 2] }
}

struct Side {
    room: Room,
    call: Box<dyn FnMut(&mut Room) -> u64>,
}

impl Side {
    fn run(&mut self) -> u64 {
        (self.call)(&mut self.room)
    }
}

struct Pair {
    function: &'static str,
    ours: Side,
    plain: Side,
}

fn stop(message: String) -> ! {
    println!("bench: {}", message);
    std::process::exit(1)
}

// The two sides, where they agree. What the plain side does not answer agrees with nothing.
fn pair(
    function: &'static str,
    k: &'static Kind,
    ours: impl FnMut(&mut Room) -> u64 + 'static,
    mut plain: impl FnMut(&mut Room) -> Option<u64> + 'static,
) -> Pair {
    let n = k.row.len();
    let mut ours = Side { room: room(n), call: Box::new(ours) };
    let mut plain = Side { room: room(n), call: Box::new(move |room| plain(room).unwrap_or(u64::MAX)) };
    let answers = (ours.run(), plain.run());
    if answers.0 != answers.1 {
        stop(format!("{} of {}, n {}: the library answers {}, plain Rust {}", function, k.name, n, answers.0, answers.1));
    }
    if ours.room.numbers[1..] != plain.room.numbers[1..] || ours.room.bytes != plain.room.bytes {
        stop(format!("{} of {}, n {}: the library and plain Rust write different things", function, k.name, n));
    }
    Pair { function, ours, plain }
}

fn judge_pair(k: &'static Kind, y: Vec<u16>) -> Pair {
    let a = k.letters;
    let bytes = encode(&y);
    // the figures give no number, so places are what is compared
    pair("judge", k, move |_| judge(a, &bytes) >> 8, move |r| Some(plain::judge(&y, &mut r.v, a) as u64))
}

// Each call begins by writing the array that is stepped from into the lent buffer, on both sides.
fn next_pair(function: &'static str, k: &'static Kind, y: &'static [u16]) -> Pair {
    let a = k.letters;
    let ours = move |r: &mut Room| {
        r.numbers.copy_from_slice(y);
        unsafe { claybobbin_next(a, r.numbers[1..].as_mut_ptr(), y.len() - 1) }
    };
    let plain = move |r: &mut Room| {
        r.numbers.copy_from_slice(y);
        plain::next(&mut r.numbers, &mut r.v, a)
    };
    pair(function, k, ours, plain)
}

fn rebuild(k: &Kind, y: &[u16], r: &mut Room) -> u64 {
    unsafe { claybobbin_rebuild(k.letters, y[1..].as_ptr(), y.len() - 1, r.bytes.as_mut_ptr(), y.len() - 1) }
}

// In the order of the header.
fn pairs(k: &'static Kind) -> Vec<Pair> {
    let (a, n) = (k.letters, k.row.len());
    let (row, cards) = (&k.row[..], k.row.as_ptr());
    let (renamed, backwards) = (&k.renamed[..], &k.backwards[..]);
    vec![
        pair(
            "echoes",
            k,
            move |r| unsafe { claybobbin_echoes(a, cards, n, r.numbers[1..].as_mut_ptr(), n) },
            move |r| plain::echoes(a, row, &mut r.numbers).then_some(0),
        ),
        pair(
            "reach",
            k,
            move |r| unsafe { claybobbin_reach(a, cards, n, r.numbers[1..].as_mut_ptr(), n) },
            move |r| plain::reach(a, row, &mut r.numbers).then_some(0),
        ),
        pair("looks", k, move |_| unsafe { claybobbin_looks(a, cards, n) }, move |r| plain::looks(a, row, &mut r.e).map(value)),
        judge_pair(k, k.echoes.clone()),
        pair("rebuild", k, move |r| rebuild(k, &k.echoes, r), move |r| plain::rebuild(&k.echoes, &mut r.v, a, &mut r.bytes).then_some(0)),
        pair(
            "first",
            k,
            move |r| unsafe { claybobbin_first(a, n, r.numbers[1..].as_mut_ptr(), n) },
            move |r| {
                plain::first(a, &mut r.numbers);
                Some(0)
            },
        ),
        next_pair("next 1", k, &k.one),
        next_pair("next n", k, &k.most),
        pair(
            "sheet",
            k,
            move |r| unsafe { claybobbin_sheet(a, cards, n, r.bytes.as_mut_ptr(), r.bytes.len()) },
            move |r| plain::sheet(a, row, &mut r.e, &mut r.f, &mut r.bytes).map(value),
        ),
        pair(
            "guess",
            k,
            move |_| unsafe { claybobbin_guess(a, cards, n, renamed.as_ptr(), n) },
            move |r| plain::guess(a, row, renamed, &mut r.e, &mut r.f).map(differs),
        ),
        pair("closing", k, move |_| unsafe { claybobbin_closing(cards, n) }, move |r| Some(value(plain::closing(row, &mut r.e)))),
        pair(
            "joining",
            k,
            move |_| unsafe { claybobbin_joining(backwards.as_ptr(), n, cards, n) },
            move |r| Some(value(plain::joining(backwards, row, &mut r.e))),
        ),
    ]
}

// ---- time

// The value, of which the compiler knows nothing: no call is done once for many.
fn opaque<T: Copy>(x: T) -> T {
    unsafe { std::ptr::read_volatile(&x) }
}

fn used<T: Copy>(x: T) {
    opaque(x);
}

fn median(mut t: Vec<f64>) -> f64 {
    t.sort_by(|x, y| x.partial_cmp(y).unwrap());
    t[t.len() / 2]
}

// The process's own time in microseconds: Linux's clock 2.
fn now() -> f64 {
    let mut time = [0i64; 2];
    assert_eq!(unsafe { clock_gettime(2, &mut time) }, 0);
    time[0] as f64 * 1e6 + time[1] as f64 / 1e3
}

// The time of each of some calls.
fn timed(calls: usize, mut call: impl FnMut()) -> f64 {
    let start = now();
    (0..calls).for_each(|_| call());
    (now() - start) / calls as f64
}

// The median time of each side in microseconds: the sides take turns, each turn as many calls as take about a tenth of a millisecond.
fn medians(rounds: usize, sides: &mut [&mut dyn FnMut()]) -> Vec<f64> {
    let calls: Vec<usize> = sides.iter_mut().map(|side| (100.0 / (timed(2, side) + 1e-3)) as usize + 1).collect();
    let mut times = vec![Vec::new(); sides.len()];
    for _ in 0..rounds {
        for (j, side) in sides.iter_mut().enumerate() {
            times[j].push(timed(calls[j], side));
        }
    }
    times.into_iter().map(median).collect()
}

// One function on one kind of row: the library's time at each of the lengths, and plain Rust's at the greatest.
struct Times {
    ours: [f64; 3],
    plain: f64,
}

fn times(rounds: usize, large: &mut Pair, middle: &mut Pair, small: &mut Pair) -> Times {
    let (ours, plain) = (&mut large.ours, &mut large.plain);
    let t = medians(rounds, &mut [&mut || used(ours.run()), &mut || used(plain.run()), &mut || used(middle.ours.run()), &mut || used(small.ours.run())]);
    Times { ours: [t[0], t[2], t[3]], plain: t[1] }
}

// ---- stack

const PAINT: u64 = 0xa5a5_5a5a_c3c3_3c3c;
const STACK: usize = 2 << 20;

extern "C" fn start(call: *mut c_void) -> *mut c_void {
    let call = unsafe { &mut *(call as *mut &mut dyn FnMut()) };
    call();
    std::ptr::null_mut()
}

// How deep a thread went that does this call on a stack of its own, painted before: down to the lowest word that changed.
fn depth(stack: &mut [u64], mut call: &mut dyn FnMut()) -> usize {
    stack.fill(PAINT);
    let mut attributes: Attributes = [0; 7];
    let mut thread = 0;
    let done = unsafe {
        pthread_attr_init(&mut attributes) == 0
            && pthread_attr_setstack(&mut attributes, stack.as_mut_ptr() as *mut c_void, STACK) == 0
            && pthread_create(&mut thread, &attributes, start, &mut call as *mut &mut dyn FnMut() as *mut c_void) == 0
            && pthread_join(thread, std::ptr::null_mut()) == 0
    };
    let untouched = stack.iter().take_while(|&&word| word == PAINT).count();
    if !done || untouched == 0 {
        stop("no thread, or its stack was too small".to_string());
    }
    STACK - 8 * untouched
}

// The depth of a function so far, less that of an empty call: the least, the most, and on what it was the most.
struct Depth {
    function: &'static str,
    least: usize,
    most: usize,
    on: String,
}

struct Depths {
    stack: Vec<u64>,
    empty: usize,
    seen: Vec<Depth>,
}

impl Depths {
    fn new() -> Depths {
        let mut stack = vec![0; STACK / 8];
        let empty = depth(&mut stack, &mut || used(0u64));
        Depths { stack, empty, seen: Vec::new() }
    }

    fn note(&mut self, function: &'static str, on: String, call: &mut dyn FnMut()) {
        let d = depth(&mut self.stack, call).saturating_sub(self.empty);
        match self.seen.iter_mut().find(|seen| seen.function == function) {
            None => self.seen.push(Depth { function, least: d, most: d, on }),
            Some(seen) if seen.most < d => *seen = Depth { most: d, on, ..*seen },
            Some(seen) => seen.least = seen.least.min(d),
        }
    }

    fn note_pair(&mut self, k: &Kind, pair: &mut Pair) {
        let function = if pair.function.starts_with("next") { "next" } else { pair.function };
        self.note(function, format!("{}, {}", k.name, k.row.len()), &mut || used(pair.ours.run()));
    }

    fn note_broken(&mut self, k: &Kind, y: &[u16]) {
        let (n, bytes, mut r) = (y.len() - 1, encode(y), room(y.len() - 1));
        let on = format!("{}, {}, {} at the last place", k.name, n, y[n]);
        let mut stepped = y.to_vec();
        self.note("judge", on.clone(), &mut || used(judge(k.letters, &bytes)));
        self.note("rebuild", on.clone(), &mut || used(rebuild(k, y, &mut r)));
        self.note("next", on, &mut || used(unsafe { claybobbin_next(k.letters, stepped[1..].as_mut_ptr(), n) }));
    }
}

// ---- what is printed: tables as docs/MEASURED.md has them

fn print_row(name: &str, cells: impl Iterator<Item = String>) {
    println!("| {:<18} | {} |", name, cells.map(|cell| format!("{:>7}", cell)).collect::<Vec<_>>().join(" | "));
}

fn print_head(title: &str, columns: &[&str]) {
    println!("\n{}\n", title);
    print_row("", columns.iter().map(|c| c.to_string()));
    println!("|---|{}", "---:|".repeat(columns.len()));
}

fn grid(title: &str, functions: &[&str], table: &[(&Kind, Vec<Times>)], cell: impl Fn(&Times) -> f64) {
    print_head(title, functions);
    for (k, row) in table {
        print_row(k.name, row.iter().map(|t| format!("{:.2}", cell(t))));
    }
}

// A number that cannot come at the last place of an array has no ratio.
fn print_broken(rounds: usize, kinds: &'static [Kind]) {
    print_head("judge, 4,096 echoes broken at the last place, by the number that comes back: ratio.", &["5", "6", "7"]);
    for k in kinds {
        let mut ratios = ["-".to_string(), "-".to_string(), "-".to_string()];
        for y in breaks(k) {
            let number = judge(k.letters, &encode(&y)) & 255;
            let Pair { mut ours, mut plain, .. } = judge_pair(k, y);
            let t = medians(rounds, &mut [&mut || used(ours.run()), &mut || used(plain.run())]);
            ratios[number as usize - 5] = format!("{:.2}", t[0] / t[1]);
        }
        print_row(k.name, ratios.into_iter());
    }
}

fn print_count(rounds: usize) {
    let mut e = [0usize; 21];
    let (ours, plain) = (count(26, 20), plain::count(&mut e, 26, 0, 20));
    if ours >> 2 != plain {
        stop(format!("count: the library counts {}, plain Rust {}", ours >> 2, plain));
    }
    // a count takes long, and its time changes little
    let rounds = (rounds / 5 + 1).min(21);
    let t = medians(rounds, &mut [&mut || used(count(26, 20)), &mut || used(plain::count(&mut e, opaque(26), 0, 20))]);
    println!("\ncount, A 26, n 20: the library {:.0} microseconds, plain Rust {:.0}, ratio {:.2}.", t[0], t[1], t[0] / t[1]);
}

// How many places a step changes, over the kinds: the fewest and the most, without arrays that are the last of their length.
fn print_changed(function: &str, arrays: impl Iterator<Item = (usize, &'static [u16])>) {
    let mut places: Vec<usize> = Vec::new();
    for (a, y) in arrays {
        let mut stepped = y.to_vec();
        used(unsafe { claybobbin_next(a, stepped[1..].as_mut_ptr(), y.len() - 1) });
        places.push(stepped.iter().zip(y).filter(|(x, y)| x != y).count());
    }
    places.retain(|&changed| changed > 0);
    places.sort_unstable();
    println!("{}: {} to {} places of {} change.", function, places[0], places[places.len() - 1], LENGTHS[0]);
}

fn print_stack(mut depths: Depths) {
    for a in [1, 2, 3, 26] {
        depths.note("count", format!("A {}, n 20", a), &mut || used(count(a, 20)));
    }
    println!("\nStack in bytes, over all kinds and lengths, arrays broken at the last place among them.\n");
    println!("| {:<18} | {:>7} | {:>7} | the most on |\n|---|---:|---:|---|", "", "least", "most");
    for d in depths.seen {
        println!("| {:<18} | {:>7} | {:>7} | {} |", d.function, d.least, d.most, if d.least == d.most { "all" } else { &d.on });
    }
}

#[no_mangle]
pub extern "C" fn main() -> i32 {
    let rounds = std::env::args().nth(1).and_then(|r| r.parse().ok()).unwrap_or(101);
    let [large, middle, small] = LENGTHS.map(kinds);
    let mut depths = Depths::new();
    let mut table = Vec::new();
    let mut functions = Vec::new();
    for of_lengths in large.iter().zip(middle).zip(small).map(|((l, m), s)| [l, m, s]) {
        let mut of_kind = of_lengths.map(pairs);
        for (k, pairs) in of_lengths.into_iter().zip(&mut of_kind) {
            pairs.iter_mut().for_each(|pair| depths.note_pair(k, pair));
            breaks(k).iter().for_each(|y| depths.note_broken(k, y));
        }
        let [l, m, s] = &mut of_kind;
        functions = l.iter().map(|pair| pair.function).collect();
        table.push((of_lengths[0], l.iter_mut().zip(m).zip(s).map(|((l, m), s)| times(rounds, l, m, s)).collect()));
    }
    grid("Ratio, library over plain Rust, 4,096.", &functions, &table, |t| t.ours[0] / t.plain);
    grid("Microseconds of the library, 4,096.", &functions, &table, |t| t.ours[0]);
    grid("Growth, 4,096 over 2,048.", &functions, &table, |t| t.ours[0] / t.ours[1]);
    grid("Growth, 2,048 over 1,024.", &functions, &table, |t| t.ours[1] / t.ours[2]);
    println!();
    print_changed("next 1", large.iter().map(|k| (k.letters, &k.one[..])));
    print_changed("next n", large.iter().map(|k| (k.letters, &k.most[..])));
    print_broken(rounds, large);
    print_count(rounds);
    print_stack(depths);
    0
}
