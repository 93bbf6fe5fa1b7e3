// The loop that both sides share.
use std::hint::black_box;

// So many calls, one at the least, each with its answer looked at; the last answer.
#[inline(never)]
pub fn repeat<A>(count: u64, mut call: impl FnMut() -> A) -> A {
    let mut left = count;
    loop {
        let answer = call();
        black_box(&answer);
        left = left.wrapping_sub(1);
        if left == 0 {
            return answer;
        }
    }
}
