// The eight numbers of an answer: where each stands, as bindings/c/thaolisem.h has it.

// The place after what was read or written.
const NEXT: usize = 1;
// What an accepted answer has, from here on.
const FIELDS: usize = 2;
// Of a refusal: the class of the tag found (0: a number is carried), the tag's number or the number carried, the tag's value, the tags read.
const CLASS: usize = 2;
const CARRIED: usize = 3;
const VALUE: usize = 4;
const COUNT: usize = 5;

// Whether an optional body is there: the last field of its answer.
pub const PRESENT: u64 = 1;
pub const ABSENT: u64 = 2;

// An accepted answer.
pub fn accepted(next: u64, fields: &[u64]) -> [u64; 8] {
    let mut numbers = [0; 8];
    numbers[NEXT] = next;
    numbers[FIELDS..FIELDS + fields.len()].copy_from_slice(fields);
    numbers
}

// What a refusal carries.
pub enum Carried {
    Amount(u64),
    Tag([u64; 3]),
}

// A refusal of that number.
pub fn refused(number: u64, carried: Carried, count: u64) -> [u64; 8] {
    let mut numbers = [0; 8];
    numbers[0] = number;
    numbers[COUNT] = count;
    match carried {
        Carried::Amount(amount) => numbers[CARRIED] = amount,
        Carried::Tag([class, number, value]) => {
            numbers[CLASS] = class;
            numbers[CARRIED] = number;
            numbers[VALUE] = value;
        }
    }
    numbers
}

// The eight numbers as a line has them.
pub fn line(numbers: [u64; 8]) -> String {
    numbers.map(|number| number.to_string()).join(" ")
}
