// Makes requests, the same for the same seed and count.
mod alphabets;
mod blocks;
mod contents;
mod dates;
mod drawn;
mod errors;
mod floats;
mod frames;
mod headers;
mod integers;
mod items;
mod lines;
mod long;
mod malformed;
mod nesting;
mod random;
mod segments;
mod short;
mod tags;
mod texts;
mod values;

use random::Random;
use std::collections::HashSet;

// A family of requests: a list, a numbered set, or draws without end.
enum Family {
    Listed(fn() -> Vec<String>),
    Numbered { size: u64, nth: fn(u64) -> String },
    Drawn(fn(&mut Random) -> String),
}

// The families, each with its share of a run in thousandths; a draw's share is what the others leave.
const FAMILIES: &[(u64, Family)] = &[
    (1, Family::Listed(malformed::all)),
    (70, Family::Listed(integers::all)),
    (135, Family::Listed(tags::all)),
    (45, Family::Listed(values::all)),
    (11, Family::Listed(contents::all)),
    (20, Family::Listed(dates::all)),
    (8, Family::Listed(floats::all)),
    (29, Family::Listed(nesting::all)),
    (75, Family::Listed(headers::all)),
    (40, Family::Listed(errors::all)),
    (3, Family::Listed(long::all)),
    (375, Family::Numbered { size: short::SIZE, nth: short::nth }),
    (38, Family::Numbered { size: alphabets::SIZE, nth: alphabets::nth }),
    (30, Family::Numbered { size: alphabets::BLOCKS_SIZE, nth: alphabets::nth_of_blocks }),
    (20, Family::Numbered { size: alphabets::BLOCK_TAGS_SIZE, nth: alphabets::nth_of_block_tags }),
    (36, Family::Numbered { size: texts::SIZE, nth: texts::nth }),
    (12, Family::Listed(segments::all)),
    (1, Family::Listed(segments::all_long)),
    (0, Family::Drawn(items::draw)),
    (0, Family::Drawn(frames::draw)),
    (0, Family::Drawn(errors::draw)),
    (0, Family::Drawn(drawn::value)),
    (0, Family::Drawn(drawn::bytes)),
    (0, Family::Drawn(drawn::write)),
    (0, Family::Drawn(texts::draw)),
    (0, Family::Drawn(segments::draw)),
];

// Hands every request of a run to a function.
pub fn make(seed: u64, count: u64, mut give: impl FnMut(String)) {
    let mut left = count;
    for (place, (share, family)) in FAMILIES.iter().enumerate() {
        let wanted = (count * share).div_ceil(1000).min(left);
        let mut random = Random::new(seed.wrapping_add((place as u64) << 32));
        left -= match family {
            Family::Listed(all) => {
                let all = different(all());
                spread(all.len() as u64, wanted, &mut random, |n| give(all[n as usize].clone()))
            }
            Family::Numbered { size, nth } => spread(*size, wanted, &mut random, |n| give(nth(n))),
            Family::Drawn(draw) => {
                let draws = FAMILIES.len() - place;
                let number = left.div_ceil(draws as u64);
                (0..number).for_each(|_| give(draw(&mut random)));
                number
            }
        };
    }
}

// The lines without those that stand there before.
fn different(lines: Vec<String>) -> Vec<String> {
    let mut met = HashSet::new();
    lines.into_iter().filter(|line| met.insert(line.clone())).collect()
}

// Takes so many different numbers below a size, in steps that meet each once, and answers how many.
fn spread(size: u64, wanted: u64, random: &mut Random, mut take: impl FnMut(u64)) -> u64 {
    let number = wanted.min(size);
    let mut step = if number == size { 1 } else { size * 618 / 1000 | 1 };
    while greatest_divisor(step, size) != 1 {
        step += 2;
    }
    let mut at = if number == size { 0 } else { random.below(size) };
    for _ in 0..number {
        take(at);
        at = (at + step) % size;
    }
    number
}

fn greatest_divisor(a: u64, b: u64) -> u64 {
    if b == 0 {
        a
    } else {
        greatest_divisor(b, a % b)
    }
}
