//! Answers in segments, frame by frame. What is expected: 02, K9, and where nothing else is said its order of refusals.
use crate::{read, refused, same_part};
use thaolisem::Taken::{Finished, More};
use thaolisem::*;

/// Control bytes of a frame behind which more follow, and of the last.
const FOLLOWED: u8 = 0x3C;
const LAST: u8 = 0x38;

/// A frame of invoke id 1, window 4 and choice 12.
fn frame(control: u8, sequence: u8, part: &[u8]) -> Vec<u8> {
    [&[control, 1, sequence, 4, 12], part].concat()
}

/// Segments of which one frame was taken into the buffer, with this part.
fn begun(part: &[u8], buf: &mut [u8]) -> Segments {
    let mut segments = Segments::default();
    assert_eq!(segments.take(&frame(FOLLOWED, 0, part), buf), Ok(More));
    segments
}

/// Whether a frame is refused so, with segments and buffer as they were.
fn refuses(segments: &Segments, frame: &[u8], buf: &mut [u8], refusal: Refusal) {
    let (mut after, before) = (segments.clone(), buf.to_vec());
    assert_eq!(after.take(frame, buf), Err(refusal));
    assert_eq!(&after, segments);
    assert!(buf == before, "a refused frame left a trace");
}

#[test]
fn two_frames() {
    // the example of the requests in words: more 2 1 ; finished 3 2 ; refused 27 0 ; 010203aa
    let mut buf = [0xAA; 4];
    let mut segments = Segments::default();
    assert_eq!(segments.take(&[0x3C, 1, 0, 1, 0x0C, 1, 2], &mut buf), Ok(More));
    assert_eq!((segments.held(), segments.due(), segments.is_finished()), (2, 1, false));
    assert_eq!(segments.take(&[0x38, 1, 1, 1, 0x0C, 3], &mut buf), Ok(Finished));
    assert_eq!((segments.held(), segments.due(), segments.is_finished()), (3, 2, true));
    refuses(&segments, &[0x38, 1, 2, 1, 0x0C, 3], &mut buf, refused(27, 0));
    assert_eq!(buf, [1, 2, 3, 0xAA]);
}

#[test]
fn before_the_first_frame() {
    let segments = Segments::default();
    assert_eq!((segments.held(), segments.due(), segments.is_finished()), (0, 0, false));
    assert_eq!((segments.invoke_id(), segments.service_choice()), (None, None));
    assert_eq!(segments.joined(&[7]), Some(&[][..]));
}

#[test]
fn what_the_first_frame_sets() {
    // a last frame that is the first finishes at once; every invoke id and choice can be the first's
    for (id, choice) in (0..=255).zip((0..=33).cycle()) {
        let mut buf = [0xAA; 2];
        let mut segments = Segments::default();
        assert_eq!(segments.take(&[LAST, id, 0, 4, choice, 0x78], &mut buf), Ok(Finished));
        let service = ConfirmedServiceChoice::try_from(choice).ok();
        assert_eq!((segments.invoke_id(), segments.service_choice()), (Some(id), service));
        assert_eq!((segments.held(), segments.due(), segments.is_finished()), (1, 1, true));
        assert_eq!(buf, [0x78, 0xAA]);
    }
}

#[test]
fn parts_of_no_bytes() {
    let mut segments = begun(&[], &mut []);
    assert_eq!((segments.held(), segments.due()), (0, 1));
    assert_eq!(segments.take(&frame(LAST, 1, &[]), &mut []), Ok(Finished));
    assert_eq!((segments.held(), segments.due()), (0, 2));
}

#[test]
fn after_255_comes_0() {
    // 257 frames of one byte each; the last has the sequence number 0
    let mut buf = [0xAA; 258];
    let mut segments = Segments::default();
    for n in 0..256 {
        let sequence = n as u8;
        assert_eq!(segments.take(&frame(FOLLOWED, sequence, &[!sequence]), &mut buf), Ok(More));
        assert_eq!((segments.held(), segments.due()), (n + 1, (n + 1) as u8));
    }
    refuses(&segments, &frame(LAST, 255, &[7]), &mut buf, refused(26, 0));
    refuses(&segments, &frame(LAST, 1, &[7]), &mut buf, refused(26, 0));
    assert_eq!(segments.take(&frame(LAST, 0, &[7]), &mut buf), Ok(Finished));
    assert_eq!((segments.held(), segments.due()), (257, 1));
    let joined: Vec<u8> = (0..=255).rev().chain([7]).collect();
    assert_eq!(segments.joined(&buf), Some(&joined[..]));
    assert_eq!(buf[257], 0xAA);
}

#[test]
fn a_repeated_frame_is_harmless() {
    let mut buf = [0xAA; 9];
    let mut segments = begun(&[1, 2], &mut buf);
    refuses(&segments, &frame(FOLLOWED, 0, &[1, 2]), &mut buf, refused(26, 0));
    assert_eq!(segments.take(&frame(FOLLOWED, 1, &[3]), &mut buf), Ok(More));
    refuses(&segments, &frame(FOLLOWED, 1, &[3]), &mut buf, refused(26, 0));
    refuses(&segments, &frame(FOLLOWED, 3, &[5]), &mut buf, refused(26, 0));
    assert_eq!(segments.take(&frame(LAST, 2, &[4]), &mut buf), Ok(Finished));
    assert_eq!(segments.joined(&buf), Some(&[1, 2, 3, 4][..]));
}

#[test]
fn every_control_byte() {
    // type 3 with bit 3 set; bit 2 says whether more follow, bits 1 and 0 are ignored
    for control in 0..=255 {
        let mut buf = [0xAA; 1];
        let mut segments = Segments::default();
        match control {
            0x38..=0x3B => {
                assert_eq!(segments.take(&frame(control, 0, &[7]), &mut buf), Ok(Finished));
            }
            0x3C..=0x3F => {
                assert_eq!(segments.take(&frame(control, 0, &[7]), &mut buf), Ok(More));
            }
            _ => {
                let refusal = refused(17, control.into());
                refuses(&segments, &frame(control, 0, &[7]), &mut buf, refusal);
            }
        }
    }
    // a header in segments is none of the others
    let whole = frame(LAST, 0, &[7]);
    assert_eq!(read(&whole, Header::decode), Err(refused(17, 0x38)));
}

#[test]
fn every_window() {
    // 1 to 127, and another with each frame
    let mut segments = Segments::default();
    for window in 0..=255 {
        let sent = [FOLLOWED, 1, segments.due(), window, 12];
        match window {
            1..=127 => assert_eq!(segments.take(&sent, &mut []), Ok(More)),
            _ => refuses(&segments, &sent, &mut [], refused(24, 0)),
        }
    }
    assert_eq!(segments.due(), 127);
}

#[test]
fn other_frames_than_the_first_began() {
    let mut buf = [0xAA; 9];
    // before the first frame any invoke id and choice will do, and no sequence but 0
    refuses(&Segments::default(), &frame(LAST, 1, &[7]), &mut buf, refused(26, 0));
    let segments = begun(&[1, 2], &mut buf);
    for (id, choice) in [(0, 12), (2, 12), (255, 12), (1, 0), (1, 33), (2, 13)] {
        refuses(&segments, &[LAST, id, 1, 4, choice, 7], &mut buf, refused(25, 0));
    }
    for choice in 34..=255 {
        refuses(&segments, &[LAST, 1, 1, 4, choice, 7], &mut buf, refused(11, choice.into()));
    }
}

#[test]
fn the_order_of_refusals() {
    // each frame has one fault less than the one before it, and those that come later too
    let mut buf = [0xAA; 3];
    let mut segments = begun(&[1, 2], &mut buf);
    let long = vec![0x20; 65_537];
    refuses(&segments, &long[1..], &mut long.clone(), refused(1, 65_537));
    refuses(&segments, &long[1..], &mut buf, refused(1, 65_536));
    for len in 0..5 {
        refuses(&segments, &long[..len], &mut buf, refused(3, len as u64));
    }
    let faults: [(&[u8], Refusal); 10] = [
        (&[0x20, 9, 9, 0, 34, 7, 8], refused(17, 0x20)),
        (&[0x34, 9, 9, 0, 34, 7, 8], refused(17, 0x34)),
        (&[0x3C, 9, 9, 0, 34, 7, 8], refused(11, 34)),
        (&[0x3C, 9, 9, 0, 13, 7, 8], refused(24, 0)),
        (&[0x3C, 9, 9, 128, 13, 7, 8], refused(24, 0)),
        (&[0x3C, 9, 9, 4, 13, 7, 8], refused(25, 0)),
        (&[0x3C, 1, 9, 4, 13, 7, 8], refused(25, 0)),
        (&[0x3C, 9, 9, 4, 12, 7, 8], refused(25, 0)),
        (&[0x3C, 1, 9, 4, 12, 7, 8], refused(26, 0)),
        (&[0x3C, 1, 1, 4, 12, 7, 8], refused(13, 2)),
    ];
    for (sent, refusal) in faults {
        refuses(&segments, sent, &mut buf, refusal);
    }
    assert_eq!(segments.take(&[0x3C, 1, 1, 4, 12, 7], &mut buf), Ok(More));
    assert_eq!(buf, [1, 2, 7]);
}

#[test]
fn a_finished_state_takes_no_more() {
    // 27 before all others
    let mut buf = [0xAA; 3];
    let mut segments = begun(&[1, 2], &mut buf);
    assert_eq!(segments.take(&frame(LAST, 1, &[3]), &mut buf), Ok(Finished));
    let long = vec![0x20; 66_000];
    for sent in [&[][..], &[0x20], &frame(FOLLOWED, 2, &[]), &frame(FOLLOWED, 0, &[]), &long] {
        refuses(&segments, sent, &mut buf, refused(27, 0));
        refuses(&segments, sent, &mut long.clone(), refused(27, 0));
    }
    assert_eq!(segments.joined(&buf), Some(&[1, 2, 3][..]));
}

#[test]
fn exactly_full_and_one_byte_short() {
    // 13 carries the part's length, without what is held
    let mut buf = [0xAA; 6];
    let mut segments = begun(&[1, 2], &mut buf[..2]);
    refuses(&segments, &frame(LAST, 1, &[3, 4, 5]), &mut buf[..4], refused(13, 3));
    assert_eq!(segments.take(&frame(FOLLOWED, 1, &[3, 4, 5]), &mut buf[..5]), Ok(More));
    refuses(&segments, &frame(LAST, 2, &[6]), &mut buf[..5], refused(13, 1));
    assert_eq!(segments.take(&frame(LAST, 2, &[]), &mut buf[..5]), Ok(Finished));
    assert_eq!(buf, [1, 2, 3, 4, 5, 0xAA]);
}

#[test]
fn the_longest_buffer_and_the_longest_frame() {
    let mut buf = vec![0xAA; 65_535];
    let part = vec![7; 65_530];
    let mut segments = begun(&part, &mut buf);
    refuses(&segments, &frame(LAST, 1, &[]), &mut [0xAA; 65_536], refused(1, 65_536));
    refuses(&segments, &frame(LAST, 1, &[8; 6]), &mut buf, refused(13, 6));
    assert_eq!(segments.take(&frame(LAST, 1, &[8; 5]), &mut buf), Ok(Finished));
    assert_eq!((segments.held(), segments.due()), (65_535, 2));
    assert_eq!(segments.joined(&buf), Some(&[&part[..], &[8; 5]].concat()[..]));
}

#[test]
fn lent_buffers_that_change() {
    let mut short = [0xAA; 3];
    let mut segments = begun(&[1, 2], &mut short);
    // a longer one, into which the caller has copied what is held
    let mut long = [0xBB; 9];
    long[..2].copy_from_slice(&short[..2]);
    assert_eq!(segments.take(&frame(FOLLOWED, 1, &[3, 4]), &mut long), Ok(More));
    assert_eq!((short, long), ([1, 2, 0xAA], [1, 2, 3, 4, 0xBB, 0xBB, 0xBB, 0xBB, 0xBB]));
    // one that has fewer bytes than are held: 13, also for a part of no bytes
    refuses(&segments, &frame(LAST, 2, &[5]), &mut short, refused(13, 1));
    refuses(&segments, &frame(LAST, 2, &[]), &mut short, refused(13, 0));
    // one whose first bytes are others: they stay as the caller has them
    let mut other = [0xCC; 5];
    assert_eq!(segments.take(&frame(LAST, 2, &[5]), &mut other), Ok(Finished));
    assert_eq!(other, [0xCC, 0xCC, 0xCC, 0xCC, 5]);
}

#[test]
fn the_joined_bytes_of_any_buffer() {
    let mut buf = [0xAA; 3];
    let segments = begun(&[1, 2], &mut buf);
    assert!(same_part(segments.joined(&buf).unwrap(), &buf[..2]));
    assert!(same_part(segments.joined(&buf[..2]).unwrap(), &buf[..2]));
    for shorter in [&buf[..1], &[]] {
        assert_eq!(segments.joined(shorter), None);
    }
}
