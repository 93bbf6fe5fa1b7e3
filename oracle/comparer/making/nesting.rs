// Blocks inside blocks, up to eighteen, closed wholly, in part, or by other numbers, in both forms of their tags.
use crate::making::blocks::{closing, opening};
use crate::making::lines::read;

// How blocks are numbered, and which number is asked for: the numbers go round from the first one; in both forms every second opening is long, and every closing has the other form than its opening.
struct Round {
    first: u8,
    numbers: u8,
    both_forms: bool,
    asked: u8,
}

const ROUNDS: [Round; 5] = [
    Round { first: 0, numbers: 1, both_forms: false, asked: 1 },
    Round { first: 0, numbers: 2, both_forms: false, asked: 2 },
    Round { first: 0, numbers: 15, both_forms: false, asked: 0 },
    Round { first: 3, numbers: 1, both_forms: true, asked: 3 },
    Round { first: 12, numbers: 18, both_forms: true, asked: 12 },
];

pub fn all() -> Vec<String> {
    let mut lines = Vec::new();
    for depth in 1..=18 {
        for closed in [0, depth - 1, depth, depth + 1] {
            for round in &ROUNDS {
                nested(depth, closed, round, &mut lines);
            }
        }
    }
    lines
}

// Openings, an item, and closings in the same order and in the other.
fn nested(depth: u8, closed: u8, round: &Round, lines: &mut Vec<String>) {
    let number = |block: u8| round.first + block % round.numbers;
    let long = |block: u8| round.both_forms && block % 2 == 1;
    let mut inner: Vec<u8> = (0..depth).flat_map(|n| opening(number(n), long(n))).collect();
    inner.extend([0x21, 0x07]);
    let closings = (0..depth).map(|n| closing(number(n), round.both_forms && !long(n)));
    let mirrored = closings.clone().rev();
    for closings in [mirrored.collect::<Vec<_>>(), closings.collect()] {
        let mut buf = inner.clone();
        closings.iter().cycle().take(usize::from(closed)).for_each(|bytes| buf.extend(bytes));
        let whole = buf.len();
        for allowance in [0, whole - 1, whole, usize::MAX] {
            lines.push(read(&format!("body {allowance}"), 0, &buf));
        }
        lines.push(read(&format!("bodyfor {} 100", round.asked), 0, &buf));
        lines.push(read(&format!("opt {} 100", round.asked), 0, &buf));
        lines.push(read("walk", 0, &buf));
        lines.push(read("walk", 1, &buf));
    }
}
