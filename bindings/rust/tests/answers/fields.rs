//! The eight numbers of errors, rejects and aborts, and the fields that they are written from, by raw calls. What is expected: 02, K2, and the table of bindings/c/thaolisem.h.
use thaolisem::raw::{decode_header, encode_header, Numbers};

const ERROR: u8 = 5;
const REJECT: u8 = 6;
const ABORT: u8 = 7;

/// The numbers of a refusal that carries an amount.
fn refused(number: u64, carried: u64) -> Numbers {
    [number, 0, 0, carried, 0, 0, 0, 0]
}

/// What a write at a place of so many bytes tells; a refused one leaves them as they were.
fn told(kind: u8, fields: [u64; 4], room: usize, place: usize) -> (Numbers, Vec<u8>) {
    let mut buf = vec![0xAA; room];
    let told = encode_header(kind, fields, &mut buf, place);
    assert!(told[0] == 0 || buf.iter().all(|byte| *byte == 0xAA), "a refused write left a trace");
    (told, buf)
}

/// Whether a header is refused so in a buffer with room for every header.
fn refuses(kind: u8, fields: [u64; 4], refusal: Numbers) {
    assert_eq!(told(kind, fields, 20, 1).0, refusal, "{kind} {fields:?}");
}

#[test]
fn each_number_read() {
    let error = [0x50, 200, 33, 0x94, 0x80, 1, 2, 3, 0x92, 4, 5, 0x3F];
    let [class, code] = [0x8001_0203, 0x0405];
    assert_eq!(decode_header(&error, 0), [0, 11, 5, 200, 33, class, code, 0]);
    assert_eq!(decode_header(&[0, 0x60, 200, 100], 1), [0, 4, 6, 200, 100, 0, 0, 0]);
    assert_eq!(decode_header(&[0x70, 200, 100], 0), [0, 3, 7, 0, 200, 100, 0, 0]);
    assert_eq!(decode_header(&[0x7F, 200, 100], 0), [0, 3, 7, 1, 200, 100, 0, 0]);
}

#[test]
fn each_tag_found() {
    // class, number and value, where every refusal tells a tag
    let found = |tag: &[u8]| decode_header(&[&[0x50, 7, 12], tag].concat(), 0);
    assert_eq!(found(&[0x24]), [4, 0, 1, 2, 4, 0, 0, 0]);
    assert_eq!(found(&[0x9C]), [4, 0, 2, 9, 4, 0, 0, 0]);
    assert_eq!(found(&[0xFE, 90]), [4, 0, 3, 90, 0, 0, 0, 0]);
    assert_eq!(found(&[0x91, 2, 0x4F]), [4, 0, 4, 4, 0, 0, 0, 0]);
}

#[test]
fn each_field_written() {
    let whole = |kind, fields, next, bytes: &[u8]| {
        let buf = [&[0xAA][..], bytes, &[0xAA]].concat();
        let answer = ([0, next, 0, 0, 0, 0, 0, 0], buf.clone());
        assert_eq!(told(kind, fields, buf.len(), 1), answer);
    };
    whole(ERROR, [200, 33, 3, 260], 9, &[0x50, 200, 33, 0x91, 3, 0x92, 1, 4]);
    let large = [0x50, 7, 12, 0x93, 1, 0, 0, 0x94, 255, 255, 255, 255];
    whole(ERROR, [7, 12, 65_536, 4_294_967_295], 13, &large);
    // a field that the kind has not is not read
    whole(REJECT, [200, 255, u64::MAX, u64::MAX], 4, &[0x60, 200, 255]);
    whole(ABORT, [0, 200, 255, u64::MAX], 4, &[0x70, 200, 255]);
    whole(ABORT, [1, 255, 200, u64::MAX], 4, &[0x71, 255, 200]);
}

#[test]
fn fields_that_name_nothing() {
    let fields = [(ERROR, [7, 12, 2, 32]), (REJECT, [7, 9, 0, 0]), (ABORT, [1, 7, 4, 0])];
    // the width of each field in bits, 0 for none
    let widths = [[8, 8, 32, 32], [8, 8, 0, 0], [1, 8, 8, 0]];
    for ((kind, fields), widths) in fields.into_iter().zip(widths) {
        for (place, width) in (0..4).zip(widths).filter(|(_, width)| *width > 0) {
            for bit in width..64 {
                let mut large = fields;
                large[place] = 1 << bit;
                refuses(kind, large, refused(12, 0));
            }
        }
    }
    for kind in [1].into_iter().chain(8..=255) {
        refuses(kind, [0; 4], refused(12, 0));
    }
}

#[test]
fn the_order_of_refusals() {
    // each has one fault less than the one before it, and those that come later too
    let fields = [256, 34, 1 << 32, 1 << 32];
    assert_eq!(told(ERROR, fields, 65_536, 65_537).0, refused(1, 65_536));
    assert_eq!(told(ERROR, fields, 3, 4).0, refused(2, 4));
    assert_eq!(told(ERROR, fields, 3, 3).0, refused(12, 0));
    assert_eq!(told(ERROR, [255, 34, 0, 1 << 32], 3, 3).0, refused(12, 0));
    assert_eq!(told(ERROR, [255, 34, 0, 256], 3, 3).0, refused(11, 34));
    assert_eq!(told(ERROR, [255, 255, 0, 256], 3, 3).0, refused(11, 255));
    assert_eq!(told(ERROR, [255, 33, 0, 256], 3, 3).0, refused(13, 8));
    for kind in [REJECT, ABORT] {
        assert_eq!(told(kind, [256; 4], 65_536, 65_537).0, refused(1, 65_536));
        assert_eq!(told(kind, [256; 4], 3, 4).0, refused(2, 4));
        assert_eq!(told(kind, [256; 4], 3, 3).0, refused(12, 0));
        assert_eq!(told(kind, [1; 4], 3, 1).0, refused(13, 3));
    }
    // a reason is no service choice
    for reason in [34, 255] {
        assert_eq!(told(REJECT, [7, reason, 0, 0], 3, 0).0[0], 0);
        assert_eq!(told(ABORT, [1, reason, reason, 0], 3, 0).0[0], 0);
    }
    // and of a read
    assert_eq!(decode_header(&[0x50; 65_536], 65_537), refused(1, 65_536));
    assert_eq!(decode_header(&[0x50], 2), refused(2, 2));
    assert_eq!(decode_header(&[0x50], 1), refused(3, 1));
}
