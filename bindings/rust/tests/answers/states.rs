//! The eight numbers of answers in segments and of their states, by raw calls; also in states that no call made. What is expected: 02, K9, and the table of bindings/c/thaolisem.h.
use thaolisem::raw::{take_segment, Numbers};

/// A frame of invoke id 1, sequence number 3, window 4 and choice 12, behind which more follow, with a part of two bytes.
const FRAME: [u8; 7] = [0x3C, 1, 3, 4, 12, 7, 8];

/// A state in which that frame is due, with three bytes held.
const DUE: Numbers = [1, 0, 1, 12, 3, 3, 0, 0];

/// The state in which one number is another.
fn with(place: usize, number: u64) -> Numbers {
    let mut state = DUE;
    state[place] = number;
    state
}

/// Whether that frame is refused so, with state and buffer as they were.
fn refuses(state: Numbers, refusal: u64, carried: u64) {
    refuses_frame(state, &FRAME, refusal, carried);
}

/// The same of any frame.
fn refuses_frame(state: Numbers, frame: &[u8], refusal: u64, carried: u64) {
    let (mut after, mut buf) = (state, [0xAA; 9]);
    let told = take_segment(&mut after, frame, &mut buf);
    assert_eq!(told, [refusal, 0, 0, carried, 0, 0, 0, 0], "{state:?}");
    assert_eq!((after, buf), (state, [0xAA; 9]));
}

/// Whether that frame is accepted in a state, and leads to this one.
fn leads_to(mut state: Numbers, after: Numbers) {
    let mut buf = [0xAA; 9];
    let told = take_segment(&mut state, &FRAME, &mut buf);
    assert_eq!(told, [0, after[5], 1, after[4], 0, 0, 0, 0]);
    assert_eq!(state, after);
    let end = after[5] as usize;
    assert_eq!(buf[end - 2..end], FRAME[5..]);
    assert_eq!(buf.iter().filter(|byte| **byte == 0xAA).count(), 7);
}

#[test]
fn each_number() {
    // begun, finished, invoke id, choice, sequence due, bytes held
    let (mut state, mut buf) = ([0; 8], [0xAA; 9]);
    let first = [0x3E, 200, 0, 1, 33, 5, 6, 7];
    assert_eq!(take_segment(&mut state, &first, &mut buf), [0, 3, 1, 1, 0, 0, 0, 0]);
    assert_eq!(state, [1, 0, 200, 33, 1, 3, 0, 0]);
    let second = [0x3C, 200, 1, 127, 33, 8];
    assert_eq!(take_segment(&mut state, &second, &mut buf), [0, 4, 1, 2, 0, 0, 0, 0]);
    assert_eq!(state, [1, 0, 200, 33, 2, 4, 0, 0]);
    let last = [0x39, 200, 2, 2, 33, 9, 10];
    assert_eq!(take_segment(&mut state, &last, &mut buf), [0, 6, 2, 3, 0, 0, 0, 0]);
    assert_eq!(state, [1, 1, 200, 33, 3, 6, 0, 0]);
    assert_eq!(buf, [5, 6, 7, 8, 9, 10, 0xAA, 0xAA, 0xAA]);
}

#[test]
fn each_refusal_leaves_the_numbers() {
    refuses(with(1, 1), 27, 0);
    refuses_frame(DUE, &[0x3C; 65_536], 1, 65_536);
    refuses_frame(DUE, &FRAME[..4], 3, 4);
    refuses_frame(DUE, &[0x30, 1, 3, 4, 12, 7, 8], 17, 0x30);
    refuses_frame(DUE, &[0x3C, 1, 3, 4, 34, 7, 8], 11, 34);
    refuses_frame(DUE, &[0x3C, 1, 3, 0, 12, 7, 8], 24, 0);
    refuses_frame(DUE, &[0x3C, 1, 3, 128, 12, 7, 8], 24, 0);
    refuses_frame(DUE, &[0x3C, 2, 3, 4, 12, 7, 8], 25, 0);
    refuses_frame(DUE, &[0x3C, 1, 3, 4, 11, 7, 8], 25, 0);
    refuses_frame(DUE, &[0x3C, 1, 4, 4, 12, 7, 8], 26, 0);
    refuses_frame(DUE, &[0x3C, 1, 3, 4, 12, 0, 0, 0, 0, 0, 0, 0], 13, 7);
    leads_to(DUE, [1, 0, 1, 12, 4, 5, 0, 0]);
}

#[test]
fn numbers_that_are_no_byte_and_no_bit() {
    // compared as they are, also where their low byte is the frame's
    for more in [1 << 8, 1 << 16, 1 << 32, 1 << 63] {
        refuses(with(2, DUE[2] + more), 25, 0);
        refuses(with(3, DUE[3] + more), 25, 0);
        refuses(with(4, DUE[4] + more), 26, 0);
    }
    // any but 0 says that it is so
    for number in [2, 1 << 8, 1 << 32, u64::MAX] {
        leads_to(with(0, number), [1, 0, 1, 12, 4, 5, 0, 0]);
        refuses_frame([number, 0, 1, 12, 3, 3, 0, 0], &[0x3C, 2, 3, 4, 12, 7, 8], 25, 0);
        refuses(with(1, number), 27, 0);
    }
}

#[test]
fn the_largest_numbers_of_a_state() {
    refuses(with(2, 255), 25, 0);
    refuses(with(3, 255), 25, 0);
    refuses(with(4, 255), 26, 0);
    leads_to(with(5, 7), [1, 0, 1, 12, 4, 9, 0, 0]);
}

#[test]
fn numbers_that_are_not_read() {
    leads_to([1, 0, 1, 12, 3, 3, u64::MAX, 7], [1, 0, 1, 12, 4, 5, 0, 0]);
    // and stay with a refusal
    refuses([1, 0, 1, 12, 2, 3, u64::MAX, 7], 26, 0);
}

#[test]
fn more_held_than_any_buffer_has() {
    for held in [8, 9, 10, 65_534, 65_535, 65_536, 1 << 32, u64::MAX - 1, u64::MAX] {
        refuses(with(5, held), 13, 2);
        // also for a part of no bytes, which has room behind nine of nine
        let (mut state, mut buf) = (with(5, held), [0xAA; 9]);
        let told = take_segment(&mut state, &FRAME[..5], &mut buf);
        match held {
            8 | 9 => assert_eq!(told, [0, held, 1, 4, 0, 0, 0, 0]),
            _ => assert_eq!(told, [13, 0, 0, 0, 0, 0, 0, 0]),
        }
        assert_eq!(buf, [0xAA; 9]);
    }
}

#[test]
fn other_states_that_no_call_made() {
    // finished and not begun
    refuses([0, 1, 0, 0, 0, 0, 0, 0], 27, 0);
    // not begun: invoke id and choice are not asked, the sequence due and the bytes held are
    leads_to([0, 0, 9, 9, 3, 3, 0, 0], [1, 0, 1, 12, 4, 5, 0, 0]);
    refuses([0, 0, 1, 12, 0, 3, 0, 0], 26, 0);
    // begun with a choice that no frame has
    refuses(with(3, 34), 25, 0);
}
