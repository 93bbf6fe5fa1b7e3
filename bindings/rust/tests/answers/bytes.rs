//! Readers and writers: ends, places, lengths and plain bytes.
use crate::{at, read, read_at, refused, write};
use thaolisem::*;

#[test]
fn the_nearer_end_counts() {
    let buf = [0x21, 0x07, 0x21];
    // the reader's own end inside the buffer
    let mut reader = Reader::new_with_len(1);
    assert!(Tag::decode(&mut reader, &buf).is_ok());
    assert!(reader.eof());
    assert_eq!(decode_unsigned(1, &mut reader, &buf), Err(refused(3, 2)));
    assert_eq!(Tag::decode(&mut reader, &buf), Err(refused(3, 1)));
    // the buffer's end before the reader's
    let mut reader = Reader { index: 3, end: 1_000 };
    assert_eq!(Tag::decode(&mut reader, &buf), Err(refused(3, 3)));
    assert_eq!(Tag::decode(&mut Reader::default(), &[]), Err(refused(3, 0)));
    reader.index = 4;
    assert_eq!(Tag::decode(&mut reader, &buf), Err(refused(2, 4)));
}

#[test]
fn places_past_the_readers_end() {
    let mut reader = Reader { index: 2, end: 1 };
    assert_eq!(Tag::decode(&mut reader, &[0x21, 0x07, 0x21]), Err(refused(2, 2)));
    assert_eq!(reader, Reader { index: 2, end: 1 });
}

#[test]
fn what_is_read_has_at_most_65_535_bytes() {
    let buf = vec![0x10; 65_536];
    assert_eq!(read(&buf, Tag::decode), Err(refused(1, 65_536)));
    assert_eq!(read(&buf, Reader::read_byte), Err(refused(1, 65_536)));
    assert_eq!(Ok(65_535), walk(&at(0), &buf[..65_535]));
    // a longer buffer is read up to the reader's end
    assert_eq!(walk(&Reader::new_with_len(65_535), &buf), Ok(65_535));
}

#[test]
fn plain_bytes_are_read() {
    let buf: &[u8] = &[1, 2, 3, 4, 5];
    assert_eq!(read(buf, Reader::read_byte), Ok((1, 1)));
    assert_eq!(read_at(3, buf, Reader::read_bytes::<2>), Ok(([4, 5], 5)));
    assert_eq!(read_at(1, buf, |r, b| r.read_slice(3, b)), Ok((&buf[1..4], 4)));
    assert_eq!(read_at(5, buf, |r, b| r.read_slice(0, b)), Ok((&buf[5..], 5)));
    // docs/DECISIONS.md: a single byte carries the end, the others place plus count
    assert_eq!(read_at(5, buf, Reader::read_byte), Err(refused(3, 5)));
    assert_eq!(read_at(4, buf, Reader::read_bytes::<2>), Err(refused(3, 6)));
    assert_eq!(read_at(5, buf, |r, b| r.read_slice(1, b)), Err(refused(3, 6)));
    assert_eq!(read_at(6, buf, Reader::read_byte), Err(refused(2, 6)));
    assert_eq!(read_at(6, buf, |r, b| r.read_slice(0, b)), Err(refused(2, 6)));
    let most = usize::MAX as u64;
    assert_eq!(read_at(5, buf, |r, b| r.read_slice(usize::MAX, b)), Err(refused(3, most)));
}

#[test]
fn plain_bytes_are_written() {
    assert_eq!(write(2, |w| w.push(7)), Ok(vec![7]));
    assert_eq!(write(2, |w| w.extend_from_slice(&[7, 8])), Ok(vec![7, 8]));
    assert_eq!(write(0, |w| w.extend_from_slice(&[])), Ok(vec![]));
    // docs/DIFFERENCES.md: a full writer
    assert_eq!(write(0, |w| w.push(7)), Err(refused(13, 1)));
    assert_eq!(write(1, |w| w.extend_from_slice(&[7, 8])), Err(refused(13, 2)));
}

#[test]
fn writes_past_the_end_and_into_long_buffers() {
    let real = ApplicationDataValue::Real(72.0);
    let mut buf = [0xAA; 2];
    let mut writer = Writer { buf: &mut buf, index: 3 };
    assert_eq!(real.encode(&mut writer), Err(refused(2, 3)));
    assert_eq!(writer.push(7), Err(refused(2, 3)));
    assert_eq!((writer.index, writer.to_bytes()), (3, &[0xAA, 0xAA][..]));
    let mut long = vec![0xAA; 65_536];
    let mut writer = Writer::new(&mut long);
    assert_eq!(real.encode(&mut writer), Err(refused(1, 65_536)));
    assert_eq!(writer.push(7), Err(refused(1, 65_536)));
    assert!(long.iter().all(|byte| *byte == 0xAA));
}

#[test]
fn lent_content_over_65_535_bytes() {
    // docs/DECISIONS.md: 1 before the place
    let long = vec![0; 65_536];
    let octets = ApplicationDataValue::OctetString(OctetString { inner: &long });
    let mut writer = Writer { buf: &mut [], index: 9 };
    assert_eq!(octets.encode(&mut writer), Err(refused(1, 65_536)));
    assert_eq!(writer.extend_from_slice(&long), Err(refused(1, 65_536)));
    // docs/DIFFERENCES.md: 65,535 bytes and their header fit into no buffer
    let octets = ApplicationDataValue::OctetString(OctetString { inner: &long[1..] });
    assert_eq!(write(65_534, |w| octets.encode(w)), Err(refused(13, 65_539)));
}

#[test]
fn writes_go_on_where_the_last_one_ended() {
    let mut buf = [0; 8];
    let mut writer = Writer::new(&mut buf);
    encode_opening_tag(&mut writer, 3).unwrap();
    encode_application_unsigned(&mut writer, 7u8).unwrap();
    encode_closing_tag(&mut writer, 3).unwrap();
    // 01, examples at the edges: a body of 21 07
    assert_eq!((writer.index, writer.to_bytes()), (4, &[0x3E, 0x21, 0x07, 0x3F][..]));
}
