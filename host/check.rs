// An independent check of the C functions, through the archive: every answer whole, and every entry of every slice that is lent. Nothing here is the library's.
// Short inputs are answered by the definitions alone (every row is written down, slices are compared as they lie), long ones by plain code that is held against
// the definitions first. The inputs are the same in every run.
// The gate runs `check long`: over five million inputs, and every count. `check` alone tries fewer, for a quick look.
#[path = "check/arrays.rs"]
mod arrays;
#[path = "check/calls.rs"]
mod calls;
#[path = "check/definitions.rs"]
mod definitions;
#[path = "check/inputs.rs"]
mod inputs;
#[path = "check/plain.rs"]
mod plain;
#[path = "check/rows.rs"]
mod rows;

#[no_mangle]
pub extern "C" fn main() -> i32 {
    let long = std::env::args().nth(1).map_or(false, |mode| mode == "long");
    let mut t = calls::Tally::new();
    let mut d = inputs::Dice(if long { 7 } else { 1 });
    rows::held();
    rows::check(&mut t, &mut d, long);
    arrays::check(&mut t, &mut d, long);
    t.print();
    0
}
