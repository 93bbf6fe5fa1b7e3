// Writes, asked of the archive.
use super::fields::{header_fields, named, under, value_fields};
use crate::archive::*;
use crate::repeat::repeat;
use protocol::Write;

pub fn write(what: &Write, buf: &mut [u8], place: usize, count: u64) -> [u64; 8] {
    let mut answer = [0; 8];
    match what {
        Write::Value(_) | Write::Header(_) => whole(what, buf, place, count, &mut answer),
        Write::Tag(_) | Write::Bool(..) => tagged(what, buf, place, count, &mut answer),
        _ => integer(what, buf, place, count, &mut answer),
    }
    answer
}

// A tag, or a boolean under one.
fn tagged(what: &Write, bytes: &mut [u8], place: usize, count: u64, told: &mut [u64; 8]) {
    let (buf, len) = (bytes.as_mut_ptr(), bytes.len());
    // The pointers are those of whole slices and arrays, none of which overlap.
    unsafe {
        match *what {
            Write::Tag(tag) => {
                let (class, number) = named(tag.name);
                repeat(count, move || {
                    thaolisem_encode_tag(class, number, tag.value, buf, len, place, told)
                })
            }
            Write::Bool(number, value) => {
                let value = u8::from(value);
                repeat(count, move || {
                    thaolisem_encode_context_bool(number, value, buf, len, place, told)
                })
            }
            _ => panic!("no operation of the archive"),
        }
    }
}

// An integer under its tag.
fn integer(what: &Write, bytes: &mut [u8], place: usize, count: u64, told: &mut [u64; 8]) {
    let (buf, len) = (bytes.as_mut_ptr(), bytes.len());
    // The pointers are those of whole slices and arrays, none of which overlap.
    unsafe {
        match *what {
            Write::Unsigned(context, value) => {
                let (class, number) = under(context);
                repeat(count, move || {
                    thaolisem_encode_unsigned(class, number, value, buf, len, place, told)
                })
            }
            Write::Signed(context, value) => {
                let (class, number) = under(context);
                repeat(count, move || {
                    thaolisem_encode_signed(class, number, value, buf, len, place, told)
                })
            }
            Write::Enumerated(context, value) => {
                let (class, number) = under(context);
                repeat(count, move || {
                    thaolisem_encode_enumerated(class, number, value, buf, len, place, told)
                })
            }
            _ => panic!("no operation of the archive"),
        }
    }
}

// A value or a header.
fn whole(what: &Write, bytes: &mut [u8], place: usize, count: u64, told: &mut [u64; 8]) {
    let (buf, len) = (bytes.as_mut_ptr(), bytes.len());
    // The pointers are those of whole slices and arrays, none of which overlap.
    unsafe {
        match *what {
            Write::Value(ref value) => {
                let (case, [a, b, c, d], content) = value_fields(value);
                let (from, size) = (content.as_ptr(), content.len());
                repeat(count, move || {
                    thaolisem_encode_value(case, a, b, c, d, from, size, buf, len, place, told)
                })
            }
            Write::Header(header) => {
                let (kind, [a, b, c, d]) = header_fields(header);
                repeat(count, move || {
                    thaolisem_encode_header(kind, a, b, c, d, buf, len, place, told)
                })
            }
            _ => panic!("no operation of the archive"),
        }
    }
}
