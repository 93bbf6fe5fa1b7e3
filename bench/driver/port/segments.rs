// A frame of an answer in segments, asked of the archive.
use crate::archive::thaolisem_take_segment;
use crate::repeat::repeat;
use protocol::SegmentsCall;

// The first frame of a script, taken so many times, each time with the first state.
pub fn take(calls: &[SegmentsCall], bytes: &mut [u8], count: u64) -> [u64; 8] {
    let SegmentsCall::Take(frame) = &calls[0] else { panic!("no frame to take") };
    let (from, size) = (frame.as_ptr(), frame.len());
    let (buf, len) = (bytes.as_mut_ptr(), bytes.len());
    let mut answer = [0; 8];
    let told = &mut answer;
    repeat(count, move || {
        let mut state = [0; 8];
        // The pointers are those of whole slices and arrays, none of which overlap.
        unsafe { thaolisem_take_segment(&mut state, from, size, buf, len, told) };
        state
    });
    answer
}
