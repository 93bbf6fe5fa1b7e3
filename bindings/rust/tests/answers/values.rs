//! The twelve application values.
use crate::{read, read_at, refused, refused_tag, same_part, write};
use thaolisem::ApplicationDataValue as Value;
use thaolisem::*;

fn date(year: u16, month: u8, day: u8, wday: u8) -> Value<'static> {
    Value::Date(Date { year, month, day, wday })
}

fn time(hour: u8, minute: u8, second: u8, hundredths: u8) -> Value<'static> {
    Value::Time(Time { hour, minute, second, hundredths })
}

fn object_id(object_type: u16, instance: u32) -> Value<'static> {
    Value::ObjectId(ObjectId { object_type, instance })
}

fn text(inner: &str) -> Value<'_> {
    Value::CharacterString(CharacterString::new(inner))
}

fn octets(inner: &[u8]) -> Value<'_> {
    Value::OctetString(OctetString::new(inner))
}

fn bits(unused_bits: u8, bits: &[u8]) -> Value<'_> {
    Value::BitString(BitString::new(unused_bits, bits))
}

/// A value is read from these bytes and written as them, and one byte less is no room.
fn both_ways(value: Value, bytes: &[u8]) {
    assert_eq!(read(bytes, Value::decode), Ok((value, bytes.len())));
    assert_eq!(write(bytes.len(), |w| value.encode(w)), Ok(bytes.to_vec()));
    let no_room = Err(refused(13, bytes.len() as u64));
    assert_eq!(write(bytes.len() - 1, |w| value.encode(w)), no_room);
}

#[test]
fn the_standards_examples() {
    // clauses 20.2.3 to 20.2.6 and 20.2.8 to 20.2.14
    both_ways(Value::Boolean(false), &[0x10]);
    both_ways(Value::Boolean(true), &[0x11]);
    both_ways(Value::UnsignedInt(72), &[0x21, 0x48]);
    both_ways(Value::SignedInt(72), &[0x31, 0x48]);
    both_ways(Value::Real(72.0), &[0x44, 0x42, 0x90, 0x00, 0x00]);
    both_ways(octets(&[0x12, 0x34, 0xFF]), &[0x63, 0x12, 0x34, 0xFF]);
    both_ways(text("This is a BACnet string!"), b"\x75\x19\x00This is a BACnet string!");
    both_ways(bits(3, &[0xA8]), &[0x82, 0x03, 0xA8]);
    both_ways(Value::Enumerated(0), &[0x91, 0x00]);
    both_ways(date(1991, 1, 24, 4), &[0xA4, 0x5B, 0x01, 0x18, 0x04]);
    both_ways(time(17, 35, 45, 17), &[0xB4, 0x11, 0x23, 0x2D, 0x11]);
    both_ways(object_id(3, 15), &[0xC4, 0x00, 0xC0, 0x00, 0x0F]);
}

#[test]
fn the_ends_of_the_ranges() {
    // 01, Values; docs/DIFFERENCES.md: Double stands under the Real tag
    both_ways(Value::Double(1.0), &[0x45, 0x08, 0x3F, 0xF0, 0, 0, 0, 0, 0, 0]);
    both_ways(date(1900, 0, 0, 0), &[0xA4, 0, 0, 0, 0]);
    both_ways(date(2155, 255, 255, 255), &[0xA4, 0xFF, 0xFF, 0xFF, 0xFF]);
    both_ways(time(255, 255, 255, 255), &[0xB4, 0xFF, 0xFF, 0xFF, 0xFF]);
    both_ways(object_id(1_023, 4_194_303), &[0xC4, 0xFF, 0xFF, 0xFF, 0xFF]);
    both_ways(Value::Enumerated(u32::MAX), &[0x94, 0xFF, 0xFF, 0xFF, 0xFF]);
    let nines = [0xFF; 8];
    both_ways(Value::UnsignedInt(u64::MAX), &[&[0x25, 0x08], &nines[..]].concat());
    both_ways(Value::SignedInt(i64::MIN), &[0x35, 0x08, 0x80, 0, 0, 0, 0, 0, 0, 0]);
    both_ways(Value::Real(f32::NEG_INFINITY), &[0x44, 0xFF, 0x80, 0x00, 0x00]);
    both_ways(text(""), &[0x71, 0x00]);
    both_ways(octets(&[]), &[0x60]);
    both_ways(bits(0, &[]), &[0x81, 0x00]);
}

#[test]
fn the_bits_of_floats_are_kept() {
    // signed zero, subnormal, infinite and large ones, by their bits
    for bits in [0x8000_0000, 0x0000_0001, 0x7F80_0000, 0xFF7F_FFFF] {
        let bytes = write(5, |w| Value::Real(f32::from_bits(bits)).encode(w)).unwrap();
        assert_eq!(bytes[1..], bits.to_be_bytes());
        let back = read(&bytes, Value::decode).unwrap().0;
        assert!(matches!(back, Value::Real(x) if x.to_bits() == bits));
    }
    for bits in [1 << 63, 1, 0x7FF0 << 48, 0xFFEF_FFFF_FFFF_FFFF] {
        let bytes = write(10, |w| Value::Double(f64::from_bits(bits)).encode(w)).unwrap();
        assert_eq!(bytes[2..], bits.to_be_bytes());
        let back = read(&bytes, Value::decode).unwrap().0;
        assert!(matches!(back, Value::Double(x) if x.to_bits() == bits));
    }
}

#[test]
fn every_nan_is_one() {
    // docs/DIFFERENCES.md, the listed exception
    let real = read(&[0x44, 0x7F, 0xC0, 0x00, 0x01], Value::decode).unwrap().0;
    assert!(matches!(real, Value::Real(x) if x.to_bits() == 0x7FC0_0000));
    let bytes = [0x45, 0x08, 0x7F, 0xF0, 0, 0, 0, 0, 0, 0x01];
    let double = read(&bytes, Value::decode).unwrap().0;
    assert!(matches!(double, Value::Double(x) if x.to_bits() == 0x7FF8 << 48));
    let nan = Value::Real(f32::from_bits(0xFF80_0001));
    assert_eq!(write(5, |w| nan.encode(w)), Ok(vec![0x44, 0x7F, 0xC0, 0x00, 0x00]));
    let nan = Value::Double(f64::from_bits(u64::MAX));
    assert_eq!(write(10, |w| nan.encode(w)), Ok(vec![0x45, 0x08, 0x7F, 0xF8, 0, 0, 0, 0, 0, 0]));
}

#[test]
fn read_but_written_otherwise_or_not_at_all() {
    // docs/DIFFERENCES.md, kept as in the Rust: a Boolean above 1 is true
    assert_eq!(read(&[0x14], Value::decode), Ok((Value::Boolean(true), 1)));
    // and unused counts above 7 or with no bits are read; the writer refuses them (row (e))
    for (value, bytes) in [(bits(9, &[]), &[0x81, 0x09][..]), (bits(8, &[0xA0]), &[0x82, 8, 0xA0])]
    {
        assert_eq!(read(bytes, Value::decode), Ok((value, bytes.len())));
        assert_eq!(write(9, |w| value.encode(w)), Err(refused(12, 0)));
    }
}

#[test]
fn cannot_be_written() {
    // 01, "Refused 12"
    let values = [
        date(1899, 1, 1, 1),
        date(2156, 1, 1, 1),
        object_id(1_024, 0),
        object_id(0, 4_194_304),
        object_id(u16::MAX, u32::MAX),
        bits(1, &[]),
        bits(255, &[0xA0]),
    ];
    for value in values {
        assert_eq!(write(9, |w| value.encode(w)), Err(refused(12, 0)));
        assert_eq!(write(0, |w| value.encode(w)), Err(refused(12, 0)));
    }
}

#[test]
fn slices_are_parts_of_the_buffer() {
    let buf: &[u8] = b"\xAA\x75\x06\x00board\x63\x01\x02\x03\x83\x04\xAB\xC0\x70";
    let (value, next) = read_at(1, buf, Value::decode).unwrap();
    assert!(
        matches!(value, Value::CharacterString(x) if same_part(x.inner.as_bytes(), &buf[4..9]))
    );
    let (value, next) = read_at(next, buf, Value::decode).unwrap();
    assert!(matches!(value, Value::OctetString(x) if same_part(x.inner, &buf[10..13])));
    let (value, next) = read_at(next, buf, Value::decode).unwrap();
    assert!(matches!(value, Value::BitString(x) if same_part(x.bits, &buf[15..17])));
    assert_eq!(next, 17);
}

#[test]
fn refused_reads() {
    let refusals: [(&[u8], u64, u64); 17] = [
        // docs/DECISIONS.md
        (&[0x21], 3, 2),
        (&[0x75, 0x09, 0x04], 9, 4),
        (&[0xB4, 0x01], 3, 2),
        (&[0xA4, 0x01], 3, 5),
        (&[0x74, 0x00, 0xE2, 0x82, 0x41], 10, 0),
        // docs/DIFFERENCES.md, rows (f), (g), (h) and the panics
        (&[0xA3, 0x01, 0x02, 0x03, 0x04], 7, 3),
        (&[0x95, 0x05, 0x01, 0x00, 0x00, 0x00, 0x00], 18, 0),
        (&[0x70], 7, 0),
        (&[0x80], 7, 0),
        (&[0x20], 7, 0),
        (&[0x71, 0x05], 9, 5),
        // 01, Values: lengths of the others, and bytes that run out
        (&[0x43, 0x00, 0x00, 0x00], 7, 3),
        (&[0xB5, 0x05, 0x00], 7, 5),
        (&[0xC3, 0x00], 7, 3),
        (&[0xC4, 0x00], 3, 5),
        (&[0x62, 0x00], 3, 3),
        (&[0x74, 0x00, 0x41], 3, 5),
    ];
    for (bytes, number, carried) in refusals {
        assert_eq!(read(bytes, Value::decode), Err(refused(number, carried)), "{bytes:02X?}");
    }
}

#[test]
fn tags_of_no_value() {
    // 01, refusal 8: context class, Null, Double or reserved
    for byte in [0x09, 0x3E, 0x3F, 0x00, 0x54, 0xD1, 0xE1, 0xF1] {
        let tag = read(&[byte], Tag::decode).unwrap().0;
        assert_eq!(read(&[byte], Value::decode), Err(refused_tag(8, tag)));
    }
}
