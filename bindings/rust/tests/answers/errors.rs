//! Errors: a class and a code behind the fixed bytes. What is expected: 02, K2, whose order is that of the bytes; 01's rules for 3, tags and integers.
use crate::{read, read_at, refused, refused_tag, write};
use thaolisem::ConfirmedServiceChoice::ReadProperty;
use thaolisem::TagNumber::*;
use thaolisem::*;

/// The fixed bytes of an error of invoke id 7 and choice 12, and a class of 2.
const FIXED: [u8; 3] = [0x50, 7, 12];
const CLASS: [u8; 2] = [0x91, 2];

/// Numbers of 32 bits at the ends of what each length holds, each with its tag and content.
const ENDS: [(u32, &[u8]); 9] = [
    (0, &[0x91, 0]),
    (32, &[0x91, 0x20]),
    (255, &[0x91, 0xFF]),
    (256, &[0x92, 1, 0]),
    (65_535, &[0x92, 0xFF, 0xFF]),
    (65_536, &[0x93, 1, 0, 0]),
    (16_777_215, &[0x93, 0xFF, 0xFF, 0xFF]),
    (16_777_216, &[0x94, 1, 0, 0, 0]),
    (4_294_967_295, &[0x94, 0xFF, 0xFF, 0xFF, 0xFF]),
];

/// The error of invoke id 7 and choice 12 with this class and code.
fn error(error_class: u32, error_code: u32) -> ConfirmedBacnetError {
    ConfirmedBacnetError { invoke_id: 7, service_choice: ReadProperty, error_class, error_code }
}

/// Whether bytes are read as that error, and where they end.
fn reads(bytes: &[u8], error: ConfirmedBacnetError, next: usize) {
    let header = Header::ConfirmedBacnetError(error);
    assert_eq!(read(bytes, Header::decode), Ok((header, next)), "{bytes:02X?}");
}

#[test]
fn every_length() {
    for (class, first) in ENDS {
        for (code, second) in ENDS {
            let bytes = [&FIXED[..], first, second].concat();
            let len = bytes.len();
            reads(&bytes, error(class, code), len);
            assert_eq!(write(len, |w| error(class, code).encode(w)), Ok(bytes));
            // 13 carries the whole header, of 7 to 13 bytes
            let header = Header::ConfirmedBacnetError(error(class, code));
            assert_eq!(write(len - 1, |w| header.encode(w)), Err(refused(13, len as u64)));
            assert_eq!(write(0, |w| header.encode(w)), Err(refused(13, len as u64)));
        }
    }
}

#[test]
fn every_id_and_choice() {
    for (invoke_id, n) in (0..=255).zip((0..=33).cycle()) {
        let service_choice = ConfirmedServiceChoice::try_from(n).unwrap();
        let other = ConfirmedBacnetError { invoke_id, service_choice, ..error(2, 32) };
        let bytes = [0x50, invoke_id, n, 0x91, 2, 0x91, 0x20];
        reads(&bytes, other, 7);
        assert_eq!(write(7, |w| other.encode(w)), Ok(bytes.to_vec()));
    }
    // 11 right behind the choice, whatever follows
    for n in 34..=255 {
        for bytes in [&[0x50, 7, n][..], &[0x50, 7, n, 0x21], &[0x50, 7, n, 0x91, 2, 0x91, 0x20]] {
            assert_eq!(read(bytes, Header::decode), Err(refused(11, n.into())));
        }
    }
}

#[test]
fn what_is_ignored_and_what_is_the_body() {
    // the low bits, bit 3 too
    for control in 0x50..=0x5F {
        reads(&[control, 7, 12, 0x91, 2, 0x91, 0x20], error(2, 32), 7);
    }
    // what stands behind the code: an opening, a closing without one, a tag that is cut
    for behind in [0x0E, 0x3F, 0x95] {
        reads(&[0x5F, 7, 12, 0x91, 2, 0x91, 0x20, behind], error(2, 32), 7);
    }
}

#[test]
fn longer_than_needed() {
    // a class in five bytes and, behind the code, a body
    let bytes = [0x50, 7, 12, 0x95, 5, 0, 0, 0, 0, 2, 0x91, 0x20, 0x91, 0x20];
    reads(&bytes, error(2, 32), 12);
    // a length of one in the long form: written again, it is the shortest
    reads(&[0x50, 7, 12, 0x95, 1, 2, 0x91, 0x20], error(2, 32), 8);
    let shortest = vec![0x50, 7, 12, 0x91, 2, 0x91, 0x20];
    assert_eq!(write(8, |w| error(2, 32).encode(w)), Ok(shortest));
    // the largest class and code, in eight bytes each
    let most = [0x95, 8, 0, 0, 0, 0, 0xFF, 0xFF, 0xFF, 0xFF];
    reads(&[&FIXED[..], &most, &most].concat(), error(u32::MAX, u32::MAX), 23);
}

#[test]
fn the_fixed_bytes_run_out() {
    for len in 0..3 {
        assert_eq!(read(&FIXED[..len], Header::decode), Err(refused(3, len as u64)));
        assert_eq!(read(&[0x58, 7, 12][..len], Header::decode), Err(refused(3, len as u64)));
    }
}

/// Bytes where an enumerated is to stand, and their refusal; what a 3 carries is counted from their start.
fn no_enumerated() -> Vec<(&'static [u8], Refusal)> {
    let found = |number, value| refused_tag(4, Tag::new(number, value));
    vec![
        // the tag is read whole first, also another one's
        (&[], refused(3, 0)),
        (&[0x95], refused(3, 1)),
        (&[0x95, 0xFE, 1], refused(3, 4)),
        (&[0x25], refused(3, 1)),
        (&[0xF9], refused(3, 1)),
        (&[0x21], found(Application(ApplicationTagNumber::UnsignedInt), 1)),
        (&[0x00, 0x91], found(Application(ApplicationTagNumber::Null), 0)),
        (&[0xD1, 2], found(Application(ApplicationTagNumber::Reserve1), 1)),
        (&[0x65, 0xFE, 1, 0x2C], found(Application(ApplicationTagNumber::OctetString), 300)),
        (&[0x99, 1, 0x91, 0x20], found(ContextSpecific(9), 1)),
        (&[0xF9, 200, 1], found(ContextSpecific(200), 1)),
        // the standard's form for AddListElement and its like
        (&[0x0E, 0x91, 2, 0x91, 0x20, 0x0F], found(ContextSpecificOpening(0), 0)),
        (&[0x9E, 0x91], found(ContextSpecificOpening(9), 0)),
        (&[0x9F, 0x91], found(ContextSpecificClosing(9), 0)),
        // lengths before any byte of the content
        (&[0x90], refused(7, 0)),
        (&[0x95, 9], refused(7, 9)),
        (&[0x95, 0xFE, 1, 0x2C, 0], refused(7, 300)),
        // the content: place plus length
        (&[0x91], refused(3, 2)),
        (&[0x92], refused(3, 3)),
        (&[0x94, 1, 2, 3], refused(3, 5)),
        (&[0x95, 8, 1], refused(3, 10)),
        // above 32 bits
        (&[0x95, 5, 1, 0, 0, 0, 0], refused(18, 0)),
        (&[0x95, 8, 1, 0, 0, 0, 0, 0, 0, 0], refused(18, 0)),
        (&[0x95, 8, 255, 255, 255, 255, 255, 255, 255, 255], refused(18, 0)),
    ]
}

/// The refusal of bytes that stand so many bytes further on.
fn moved(refusal: Refusal, by: usize) -> Refusal {
    match refusal.carried {
        Carried::Amount(place) if refusal.number == 3 => refused(3, place + by as u64),
        _ => refusal,
    }
}

#[test]
fn the_class_then_the_code() {
    for (bytes, refusal) in no_enumerated() {
        // the class, also behind other bytes of the buffer; then the code
        for before in [&FIXED[..], &[0xFF, 0x50, 7, 12], &[&FIXED[..], &CLASS].concat()] {
            let place = usize::from(before[0] == 0xFF);
            let sent = [before, bytes].concat();
            let expected = Err(moved(refusal, before.len()));
            assert_eq!(read_at(place, &sent, Header::decode), expected, "{sent:02X?}");
        }
    }
    // a class at fault is refused before the code is looked at
    let above: &[u8] = &[0x95, 5, 1, 0, 0, 0, 0];
    for (class, refusal) in [(&[0x90][..], refused(7, 0)), (above, refused(18, 0))] {
        let both = [&FIXED[..], class, &[0x21]].concat();
        assert_eq!(read(&both, Header::decode), Err(refusal));
    }
}
