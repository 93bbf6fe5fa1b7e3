// Reads, asked of the archive.
use crate::archive::*;
use crate::repeat::repeat;
use protocol::Read;

pub fn read(what: &Read, bytes: &[u8], place: usize, count: u64) -> [u64; 8] {
    let (buf, len) = (bytes.as_ptr(), bytes.len());
    let mut answer = [0; 8];
    let told = &mut answer;
    // The pointers are those of whole slices and arrays, none of which overlap.
    unsafe {
        match *what {
            Read::Tag => repeat(count, move || thaolisem_decode_tag(buf, len, place, told)),
            Read::Unsigned(n) => {
                repeat(count, move || thaolisem_decode_unsigned(n, buf, len, place, told))
            }
            Read::Signed(n) => {
                repeat(count, move || thaolisem_decode_signed(n, buf, len, place, told))
            }
            Read::Body { allowance } => {
                let allowance = allowance as usize;
                repeat(count, move || thaolisem_get_tagged_body(allowance, buf, len, place, told))
            }
            Read::BodyFor { number, allowance } => {
                let allowance = allowance as usize;
                repeat(count, move || {
                    thaolisem_get_tagged_body_for_tag(number, allowance, buf, len, place, told)
                })
            }
            Read::OptionalBody { number, allowance } => {
                let allowance = allowance as usize;
                repeat(count, move || {
                    thaolisem_get_optional_tagged_body(number, allowance, buf, len, place, told)
                })
            }
            Read::Walk => repeat(count, move || thaolisem_walk(buf, len, place, told)),
            Read::Value => repeat(count, move || thaolisem_decode_value(buf, len, place, told)),
            Read::Header => repeat(count, move || thaolisem_decode_header(buf, len, place, told)),
            Read::Utf8 => repeat(count, move || thaolisem_check_utf8(buf, len, told)),
            _ => panic!("no operation of the archive"),
        }
    }
    answer
}
