//! Tests of a crate that was built for version 65,535 beside this library: every call of it is refused 0, and nothing is called.
//! tests/bindings builds that crate, from a copy of the source with the one number changed.
use thaolisem::*;

/// Whether an answer is the refusal that says which version the library has.
fn other_version<T: std::fmt::Debug>(answer: Result<T, Refusal>) {
    let refusal = answer.unwrap_err();
    let version = match refusal.carried {
        Carried::Amount(version) => version,
        Carried::TagFound(tag) => panic!("{tag:?}"),
    };
    assert_eq!(refusal, Refusal { number: 0, carried: Carried::Amount(version), tags: 0 });
    assert!(version != 0 && version != 65_535);
    let said = format!("the library has version {version}, this crate needs 65535");
    assert_eq!(refusal.to_string(), said);
}

/// Whether a read of bytes that this library accepts is refused, and the reader stays.
fn read<T: std::fmt::Debug>(call: impl FnOnce(&mut Reader) -> Result<T, Refusal>) {
    let mut reader = Reader::default();
    other_version(call(&mut reader));
    assert_eq!(reader, Reader::default());
}

/// Whether a write that this library accepts is refused, and writer and buffer stay.
fn write(call: impl FnOnce(&mut Writer) -> Result<(), Refusal>) {
    let mut buf = [0xAA; 9];
    let mut writer = Writer::new(&mut buf);
    other_version(call(&mut writer));
    assert_eq!(writer.index, 0);
    assert_eq!(buf, [0xAA; 9]);
}

#[test]
fn reads() {
    read(|r| Tag::decode(r, &[0x21, 0x07]));
    read(|r| decode_unsigned(1, r, &[0x07]));
    read(|r| decode_signed(1, r, &[0x07]));
    read(|r| get_tagged_body(r, &[0x3E, 0x3F]).map(|body| body.1));
    read(|r| get_tagged_body_for_tag(r, &[0x3E, 0x3F], 3).map(<[u8]>::len));
    read(|r| get_optional_tagged_body(r, &[0x3E, 0x3F], 3).map(|body| body.is_some()));
    read(|r| walk(r, &[0x21, 0x07]));
    read(|r| ApplicationDataValue::decode(r, &[0x21, 0x07]).map(|_| ()));
    read(|r| Header::decode(r, &[0x20, 0x04, 0x0F]));
    read(|_| check_utf8(b"text").map(str::len));
}

#[test]
fn writes() {
    write(|w| Tag::new(TagNumber::ContextSpecific(0), 4).encode(w));
    write(|w| encode_opening_tag(w, 3));
    write(|w| encode_unsigned(w, None, 7u64));
    write(|w| encode_signed(w, None, 7));
    write(|w| encode_enumerated(w, 7u64, None));
    write(|w| encode_context_bool(w, 0, true));
    write(|w| ApplicationDataValue::Boolean(true).encode(w));
    let service_choice = ConfirmedServiceChoice::WriteProperty;
    write(|w| SimpleAck { invoke_id: 4, service_choice }.encode(w));
}

#[test]
fn segments() {
    let frame = [0x38, 0x01, 0x00, 0x04, 0x0C, 0x78];
    let mut segments = Segments::default();
    let mut buf = [0xAA; 9];
    other_version(segments.take(&frame, &mut buf));
    assert_eq!(segments, Segments::default());
    let mut state = [0; 8];
    other_version(raw::accepted(&raw::take_segment(&mut state, &frame, &mut buf)));
    assert_eq!((state, buf), ([0; 8], [0xAA; 9]));
}
