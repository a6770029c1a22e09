// The one place that calls the C functions. Each call is compared whole: the packed answer, and every entry of every slice that was lent, with those around it.
use super::inputs::encode;
use std::fmt::Debug;
use std::ops::Range;
use std::sync::atomic::{AtomicPtr, Ordering};

extern "C" {
    fn claybobbin_echoes(a: usize, row: *const u8, row_length: usize, out: *mut u16, out_length: usize) -> u64;
    fn claybobbin_reach(a: usize, row: *const u8, row_length: usize, out: *mut u16, out_length: usize) -> u64;
    fn claybobbin_looks(a: usize, row: *const u8, row_length: usize) -> u64;
    fn claybobbin_judge(a: usize, n: usize, bytes: *const u8, length: usize) -> u64;
    fn claybobbin_rebuild(a: usize, e: *const u16, e_length: usize, row: *mut u8, row_length: usize) -> u64;
    fn claybobbin_count(a: usize, n: usize) -> u64;
    fn claybobbin_first(a: usize, n: usize, out: *mut u16, out_length: usize) -> u64;
    fn claybobbin_next(a: usize, e: *mut u16, e_length: usize) -> u64;
    fn claybobbin_sheet(a: usize, row: *const u8, row_length: usize, buffer: *mut u8, buffer_length: usize) -> u64;
    fn claybobbin_guess(a: usize, hidden: *const u8, hidden_length: usize, guess: *const u8, guess_length: usize) -> u64;
    fn claybobbin_closing(row: *const u8, row_length: usize) -> u64;
    fn claybobbin_joining(left: *const u8, left_length: usize, right: *const u8, right_length: usize) -> u64;
    fn mmap(address: *mut u8, length: usize, protection: i32, flags: i32, file: i32, offset: i64) -> *mut u8;
    fn mprotect(address: *mut u8, length: usize, protection: i32) -> i32;
    fn signal(number: i32, handler: extern "C" fn(i32)) -> usize;
}

// ---- answers

#[derive(Clone, Copy, PartialEq, Debug)]
pub struct Answer {
    pub number: u64,
    pub place: u64,
    pub value: u64,
}

pub fn done(value: usize) -> Answer {
    Answer { number: 0, place: 0, value: value as u64 }
}

pub fn refused(number: u64, place: usize) -> Answer {
    Answer { number, place: place as u64, value: 0 }
}

// The answer, and what is then at the start of the buffer that was lent. With None it is as it came.
pub type Outcome<T> = (Answer, Option<Vec<T>>);

// ---- lent slices

pub trait Cell: Copy + PartialEq + Debug {
    // What stands in a buffer before a call, and on both sides of every slice: neither a letter nor an echo nor a byte of a sheet is like it.
    fn pattern(i: usize) -> Self;
}

impl Cell for u8 {
    fn pattern(i: usize) -> u8 {
        128 | (i * 7) as u8
    }
}

impl Cell for u16 {
    fn pattern(i: usize) -> u16 {
        32768 | (i * 4099) as u16
    }
}

// A slice, and what it must be after the call. It lies inside a larger allocation, whose other entries are guards.
struct Lent<T> {
    what: &'static str,
    before: Vec<T>,
    after: Vec<T>,
    cells: Vec<T>,
    start: usize,
}

impl<T: Cell> Lent<T> {
    fn new(what: &'static str, before: Vec<T>, after: Option<&[T]>) -> Lent<T> {
        let mut expected = before.clone();
        if let Some(after) = after {
            expected[..after.len()].copy_from_slice(after);
        }
        Lent { what, before, after: expected, cells: Vec::new(), start: 0 }
    }

    // A slice that is only read.
    fn read(what: &'static str, entries: &[T]) -> Lent<T> {
        Lent::new(what, entries.to_vec(), None)
    }

    // A buffer of so many entries, filled with the pattern.
    fn buffer(what: &'static str, room: usize, after: &Option<Vec<T>>) -> Lent<T> {
        Lent::new(what, (0..room).map(|i| T::pattern(i + 5)).collect(), after.as_deref())
    }

    // The function has no such slice.
    fn none() -> Lent<T> {
        Lent::new("", Vec::new(), None)
    }

    fn is_empty(&self) -> bool {
        !self.what.is_empty() && self.before.is_empty()
    }

    // Where the slice lies for a call. The guards in front of it are as many as are asked for, so that it begins at every offset from an aligned address.
    fn lay(&mut self, way: Way, guards: usize, ground: &Ground) -> *mut T {
        let end = guards + self.before.len();
        self.start = guards;
        self.cells.clear();
        self.cells.extend((0..guards).map(T::pattern));
        self.cells.extend_from_slice(&self.before);
        self.cells.extend((end..end + 16).map(T::pattern));
        match way {
            Way::Null if self.before.is_empty() => std::ptr::null_mut(),
            Way::First | Way::Last => ground.put(&self.before, way),
            _ => self.cells[guards..].as_mut_ptr(),
        }
    }

    fn fetch(&mut self, way: Way, ground: &Ground) {
        if let Way::First | Way::Last = way {
            let end = self.start + self.before.len();
            ground.get(&mut self.cells[self.start..end], way);
        }
    }

    // The first entry that is not as it should be; those before the slice have numbers below 0.
    fn difference(&self) -> Option<(String, String)> {
        let (start, end) = (self.start, self.start + self.after.len());
        let guarded = |mut guards: Range<usize>| guards.all(|i| self.cells[i] == T::pattern(i));
        if self.cells[start..end] == self.after[..] && guarded(0..start) && guarded(end..self.cells.len()) {
            return None;
        }
        let expected = |i: usize| if (start..end).contains(&i) { self.after[i - start] } else { T::pattern(i) };
        let i = (0..self.cells.len()).find(|&i| self.cells[i] != expected(i))?;
        let entry = format!("{}[{}] of {}", self.what, i as isize - start as isize, self.after.len());
        Some((format!("{} = {:?}", entry, expected(i)), format!("{:?}", self.cells[i])))
    }
}

// Memory between two stretches that no one can touch, neither to write nor to read. They are 64 KiB, whole pages on every machine that runs this.
struct Ground {
    start: *mut u8,
}

const PAGE: usize = 65536;
const GROUND: usize = 8 * PAGE;

impl Ground {
    fn new() -> Ground {
        unsafe {
            // to be read and written, private, of no file
            let map = mmap(std::ptr::null_mut(), GROUND + 3 * PAGE, 3, 0x22, -1, 0);
            assert!(map as isize != -1, "no memory for the edges");
            let before = map.add(map.align_offset(PAGE));
            let start = before.add(PAGE);
            assert!(mprotect(before, PAGE, 0) == 0 && mprotect(start.add(GROUND), PAGE, 0) == 0, "no edges");
            Ground { start }
        }
    }

    fn at<T>(&self, length: usize, way: Way) -> *mut T {
        let bytes = length * std::mem::size_of::<T>();
        assert!(bytes <= GROUND);
        (if let Way::Last = way { unsafe { self.start.add(GROUND - bytes) } } else { self.start }) as *mut T
    }

    fn put<T: Copy>(&self, entries: &[T], way: Way) -> *mut T {
        let place = self.at(entries.len(), way);
        unsafe { std::ptr::copy_nonoverlapping(entries.as_ptr(), place, entries.len()) };
        place
    }

    fn get<T: Copy>(&self, entries: &mut [T], way: Way) {
        unsafe { std::ptr::copy_nonoverlapping(self.at(entries.len(), way), entries.as_mut_ptr(), entries.len()) };
    }
}

// How the slices of a call lie: among guards; those that are empty as null pointers; at the first or last bytes of a ground.
#[derive(Clone, Copy, PartialEq, Debug)]
enum Way {
    Guarded,
    Null,
    First,
    Last,
}

// Where the function lies that tells the input of the call under way, a `&dyn Fn() -> String`: for a call that does not come back.
static ASKED: AtomicPtr<()> = AtomicPtr::new(std::ptr::null_mut());

// Memory was touched that is not there: a null pointer's, or that beside a ground.
extern "C" fn fault(_: i32) {
    let asked = ASKED.load(Ordering::SeqCst) as *const &dyn Fn() -> String;
    let input = if asked.is_null() { "no call".to_string() } else { unsafe { (*asked)() } };
    fail(&input, "nothing touched outside the slices", "a fault of memory");
}

// ---- calls

#[derive(Clone, Copy)]
enum Function {
    Echoes,
    Reach,
    Looks,
    Judge,
    Rebuild,
    Count,
    First,
    Next,
    Sheet,
    Guess,
    Closing,
    Joining,
}

impl Function {
    fn name(self) -> &'static str {
        NAMES[self as usize]
    }

    // Number, place and value behind each other; for a count, number and count.
    fn pack(self, answer: Answer) -> u64 {
        match self {
            Function::Count => answer.number + 4 * answer.value,
            _ => answer.number + (answer.place << 8) + (answer.value << 24),
        }
    }

    fn shown(self, packed: u64) -> String {
        match self {
            Function::Count => format!("number {}, count {} ({:#x})", packed % 4, packed / 4, packed),
            _ => format!("number {}, place {}, value {} ({:#x})", packed % 256, packed / 256 % 65536, packed >> 24, packed),
        }
    }
}

const NAMES: [&str; 12] = ["echoes", "reach", "looks", "judge", "rebuild", "count", "first", "next", "sheet", "guess", "closing", "joining"];

// A list in a message, cut to a readable length.
fn shown<T: Debug>(list: &[T]) -> String {
    let cut = if list.len() > 40 { ".." } else { "" };
    format!("{} {:?}{}", list.len(), &list[..list.len().min(40)], cut)
}

// Ends the program: what was asked, what it should be, what it is.
pub fn fail(what: &str, expected: &str, got: &str) -> ! {
    println!("{}\n    expected {}\n    got {}", what, expected, got);
    std::process::exit(1);
}

// How many inputs each function had. The first that comes back otherwise than it should ends the program.
pub struct Tally {
    inputs: [u64; 12],
    grounds: [Ground; 2],
    // whether slices are lent at the edges of their grounds as well
    pub edges: bool,
}

impl Tally {
    pub fn new() -> Tally {
        for number in [7, 11] {
            unsafe { signal(number, fault) };
        }
        Tally { inputs: [0; 12], grounds: [Ground::new(), Ground::new()], edges: false }
    }

    pub fn print(&self) {
        for (name, inputs) in NAMES.iter().zip(&self.inputs) {
            println!("{}: {} inputs", name, inputs);
        }
        println!("{} inputs, each answered as it should be", self.inputs.iter().sum::<u64>());
    }

    // Calls in each way that there is, counts, and compares. x and y are the slices; a function with fewer has none in their place.
    fn call<T: Cell, U: Cell>(
        &mut self,
        function: Function,
        input: &dyn Fn() -> String,
        expected: Answer,
        (mut x, mut y): (Lent<T>, Lent<U>),
        c: &dyn Fn(*mut T, *mut U) -> u64,
    ) {
        for way in [Way::Guarded, Way::Null, Way::First, Way::Last] {
            match way {
                Way::Null if !x.is_empty() && !y.is_empty() => continue,
                Way::First | Way::Last if !self.edges => continue,
                _ => (),
            }
            let count = &mut self.inputs[function as usize];
            *count += 1;
            let guards = 16 + *count as usize % 32;
            let what = || format!("{}, {:?}: {}", function.name(), way, input());
            let (p, q) = (x.lay(way, guards, &self.grounds[0]), y.lay(way, guards + 1, &self.grounds[1]));
            let mut asked: &dyn Fn() -> String = &what;
            ASKED.store(&mut asked as *mut &dyn Fn() -> String as *mut (), Ordering::SeqCst);
            let got = c(p, q);
            ASKED.store(std::ptr::null_mut(), Ordering::SeqCst);
            x.fetch(way, &self.grounds[0]);
            y.fetch(way, &self.grounds[1]);
            if got != function.pack(expected) {
                fail(&what(), &function.shown(function.pack(expected)), &function.shown(got));
            }
            if let Some((expected, got)) = x.difference().or_else(|| y.difference()) {
                fail(&what(), &expected, &got);
            }
        }
    }

    pub fn echoes(&mut self, a: usize, row: &[u8], room: usize, outcome: &Outcome<u16>) {
        let lent = (Lent::read("row", row), Lent::buffer("out", room, &outcome.1));
        let input = || format!("A {}, row {}, out {}", a, shown(row), room);
        let c = |r: *mut u8, out: *mut u16| unsafe { claybobbin_echoes(a, r, row.len(), out, room) };
        self.call(Function::Echoes, &input, outcome.0, lent, &c);
    }

    pub fn reach(&mut self, a: usize, row: &[u8], room: usize, outcome: &Outcome<u16>) {
        let lent = (Lent::read("row", row), Lent::buffer("out", room, &outcome.1));
        let input = || format!("A {}, row {}, out {}", a, shown(row), room);
        let c = |r: *mut u8, out: *mut u16| unsafe { claybobbin_reach(a, r, row.len(), out, room) };
        self.call(Function::Reach, &input, outcome.0, lent, &c);
    }

    pub fn looks(&mut self, a: usize, row: &[u8], expected: Answer) {
        let lent = (Lent::read("row", row), Lent::<u8>::none());
        let input = || format!("A {}, row {}", a, shown(row));
        let c = |r: *mut u8, _: *mut u8| unsafe { claybobbin_looks(a, r, row.len()) };
        self.call(Function::Looks, &input, expected, lent, &c);
    }

    pub fn judge(&mut self, a: usize, n: usize, bytes: &[u8], expected: Answer) {
        let lent = (Lent::read("bytes", bytes), Lent::<u8>::none());
        let input = || format!("A {}, n {}, bytes {}", a, n, shown(bytes));
        let c = |b: *mut u8, _: *mut u8| unsafe { claybobbin_judge(a, n, b, bytes.len()) };
        self.call(Function::Judge, &input, expected, lent, &c);
    }

    pub fn array(&mut self, a: usize, e: &[u16], expected: Answer) {
        self.judge(a, e.len(), &encode(e), expected);
    }

    pub fn rebuild(&mut self, a: usize, e: &[u16], room: usize, outcome: &Outcome<u8>) {
        let lent = (Lent::read("e", e), Lent::buffer("row", room, &outcome.1));
        let input = || format!("A {}, e {}, row {}", a, shown(e), room);
        let c = |e_: *mut u16, row: *mut u8| unsafe { claybobbin_rebuild(a, e_, e.len(), row, room) };
        self.call(Function::Rebuild, &input, outcome.0, lent, &c);
    }

    pub fn count(&mut self, a: usize, n: usize, expected: Answer) {
        let input = || format!("A {}, n {}", a, n);
        let c = |_: *mut u8, _: *mut u8| unsafe { claybobbin_count(a, n) };
        self.call(Function::Count, &input, expected, (Lent::<u8>::none(), Lent::<u8>::none()), &c);
    }

    pub fn first(&mut self, a: usize, n: usize, room: usize, outcome: &Outcome<u16>) {
        let lent = (Lent::buffer("out", room, &outcome.1), Lent::<u8>::none());
        let input = || format!("A {}, n {}, out {}", a, n, room);
        let c = |out: *mut u16, _: *mut u8| unsafe { claybobbin_first(a, n, out, room) };
        self.call(Function::First, &input, outcome.0, lent, &c);
    }

    pub fn next(&mut self, a: usize, e: &[u16], outcome: &Outcome<u16>) {
        let lent = (Lent::new("e", e.to_vec(), outcome.1.as_deref()), Lent::<u8>::none());
        let input = || format!("A {}, e {}", a, shown(e));
        let c = |e_: *mut u16, _: *mut u8| unsafe { claybobbin_next(a, e_, e.len()) };
        self.call(Function::Next, &input, outcome.0, lent, &c);
    }

    pub fn sheet(&mut self, a: usize, row: &[u8], room: usize, outcome: &Outcome<u8>) {
        let lent = (Lent::read("row", row), Lent::buffer("buffer", room, &outcome.1));
        let input = || format!("A {}, row {}, buffer {}", a, shown(row), room);
        let c = |r: *mut u8, buffer: *mut u8| unsafe { claybobbin_sheet(a, r, row.len(), buffer, room) };
        self.call(Function::Sheet, &input, outcome.0, lent, &c);
    }

    pub fn guess(&mut self, a: usize, hidden: &[u8], guess: &[u8], expected: Answer) {
        let lent = (Lent::read("hidden", hidden), Lent::read("guess", guess));
        let input = || format!("A {}, hidden {}, guess {}", a, shown(hidden), shown(guess));
        let c = |h: *mut u8, g: *mut u8| unsafe { claybobbin_guess(a, h, hidden.len(), g, guess.len()) };
        self.call(Function::Guess, &input, expected, lent, &c);
    }

    // The two rows are parts of one slice: what is only read may overlap.
    pub fn guess_within(&mut self, a: usize, whole: &[u8], hidden: Range<usize>, guess: Range<usize>, expected: Answer) {
        let lent = (Lent::read("both", whole), Lent::<u8>::none());
        let input = || format!("A {}, hidden {:?} and guess {:?} of {}", a, hidden, guess, shown(whole));
        let c = |w: *mut u8, _: *mut u8| unsafe { claybobbin_guess(a, w.add(hidden.start), hidden.len(), w.add(guess.start), guess.len()) };
        self.call(Function::Guess, &input, expected, lent, &c);
    }

    pub fn closing(&mut self, row: &[u8], expected: Answer) {
        let lent = (Lent::read("row", row), Lent::<u8>::none());
        let input = || format!("row {}", shown(row));
        let c = |r: *mut u8, _: *mut u8| unsafe { claybobbin_closing(r, row.len()) };
        self.call(Function::Closing, &input, expected, lent, &c);
    }

    pub fn joining(&mut self, left: &[u8], right: &[u8], expected: Answer) {
        let lent = (Lent::read("left", left), Lent::read("right", right));
        let input = || format!("left {}, right {}", shown(left), shown(right));
        let c = |l: *mut u8, r: *mut u8| unsafe { claybobbin_joining(l, left.len(), r, right.len()) };
        self.call(Function::Joining, &input, expected, lent, &c);
    }

    pub fn joining_within(&mut self, whole: &[u8], left: Range<usize>, right: Range<usize>, expected: Answer) {
        let lent = (Lent::read("both", whole), Lent::<u8>::none());
        let input = || format!("left {:?} and right {:?} of {}", left, right, shown(whole));
        let c = |w: *mut u8, _: *mut u8| unsafe { claybobbin_joining(w.add(left.start), left.len(), w.add(right.start), right.len()) };
        self.call(Function::Joining, &input, expected, lent, &c);
    }
}
