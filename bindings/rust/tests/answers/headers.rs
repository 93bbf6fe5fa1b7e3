//! The headers of confirmed services.
use crate::{read, refused, write};
use thaolisem::ConfirmedServiceChoice::*;
use thaolisem::*;

/// A header is read from these bytes and written as them, and one byte less is too few and no room.
fn both_ways(header: Header, bytes: &[u8]) {
    let len = bytes.len();
    assert_eq!(read(bytes, Header::decode), Ok((header, len)));
    assert_eq!(write(len, |w| header.encode(w)), Ok(bytes.to_vec()));
    assert_eq!(read(&bytes[..len - 1], Header::decode), Err(refused(3, len as u64 - 1)));
    assert_eq!(write(len - 1, |w| header.encode(w)), Err(refused(13, len as u64)));
}

fn request(max_segments: u8, max_adpu: u8) -> ConfirmedRequest {
    ConfirmedRequest { max_segments, max_adpu, invoke_id: 1, service_choice: ReadProperty }
}

#[test]
fn every_kind() {
    // 01, "The program"; a request's control byte is 2 where its segments are not 0 (01, Headers; docs/DIFFERENCES.md)
    both_ways(Header::ConfirmedRequest(request(0, 5)), &[0x00, 0x05, 0x01, 0x0C]);
    both_ways(Header::ConfirmedRequest(request(7, 4)), &[0x02, 0x74, 0x01, 0x0C]);
    let simple = SimpleAck { invoke_id: 4, service_choice: WriteProperty };
    both_ways(Header::SimpleAck(simple), &[0x20, 0x04, 0x0F]);
    let complex = ComplexAck { invoke_id: 1, service_choice: ReadProperty };
    both_ways(Header::ComplexAck(complex), &[0x30, 0x01, 0x0C]);
    let segment = SegmentAck { invoke_id: 5, sequence_num: 1, proposed_window_size: 7 };
    both_ways(Header::SegmentAck(segment), &[0x40, 0x05, 0x01, 0x07]);
    // 02, K2; errors have tests of their own
    let reject = Reject { invoke_id: 7, reason: 9 };
    both_ways(Header::Reject(reject), &[0x60, 0x07, 0x09]);
    let abort = Abort { server: true, invoke_id: 7, reason: 4 };
    both_ways(Header::Abort(abort), &[0x71, 0x07, 0x04]);
    // each struct is written by itself too
    assert_eq!(write(4, |w| request(7, 4).encode(w)), Ok(vec![0x02, 0x74, 0x01, 0x0C]));
    assert_eq!(write(3, |w| simple.encode(w)), Ok(vec![0x20, 0x04, 0x0F]));
    assert_eq!(write(3, |w| complex.encode(w)), Ok(vec![0x30, 0x01, 0x0C]));
    assert_eq!(write(4, |w| segment.encode(w)), Ok(vec![0x40, 0x05, 0x01, 0x07]));
    assert_eq!(write(3, |w| reject.encode(w)), Ok(vec![0x60, 0x07, 0x09]));
    assert_eq!(write(3, |w| abort.encode(w)), Ok(vec![0x71, 0x07, 0x04]));
}

#[test]
fn every_nibble() {
    for nibble in 0..=15 {
        let control = if nibble == 0 { 0x00 } else { 0x02 };
        let header = Header::ConfirmedRequest(request(nibble, 15 - nibble));
        both_ways(header, &[control, nibble << 4 | (15 - nibble), 0x01, 0x0C]);
    }
    // 01, "Refused 12"; 12 comes before 13
    for bad in [request(16, 0), request(0, 16), request(255, 255)] {
        assert_eq!(write(4, |w| bad.encode(w)), Err(refused(12, 0)));
        assert_eq!(write(0, |w| bad.encode(w)), Err(refused(12, 0)));
    }
}

#[test]
fn every_choice() {
    for n in 0..=33 {
        let service_choice = ConfirmedServiceChoice::try_from(n).unwrap();
        assert_eq!(service_choice as u8, n);
        both_ways(Header::SimpleAck(SimpleAck { invoke_id: 9, service_choice }), &[0x20, 0x09, n]);
    }
    // docs/DIFFERENCES.md, row (j)
    for n in 34..=255 {
        assert_eq!(ConfirmedServiceChoice::try_from(n), Err(n));
        for bytes in [&[0x20, 0x01, n][..], &[0x30, 0x01, n], &[0x00, 0x05, 0x01, n]] {
            assert_eq!(read(bytes, Header::decode), Err(refused(11, n.into())));
        }
    }
}

#[test]
fn every_reason() {
    // 02, K2: reasons are plain numbers, and none is refused
    for (reason, invoke_id) in (0..=255).zip((0..=255).rev()) {
        both_ways(Header::Reject(Reject { invoke_id, reason }), &[0x60, invoke_id, reason]);
        for (server, control) in [(false, 0x70), (true, 0x71)] {
            let abort = Header::Abort(Abort { server, invoke_id, reason });
            both_ways(abort, &[control, invoke_id, reason]);
        }
    }
}

#[test]
fn other_control_bytes() {
    // docs/DECISIONS.md: 17 before any later byte
    assert_eq!(read(&[0x38], Header::decode), Err(refused(17, 0x38)));
    assert_eq!(read(&[0x08, 0x05, 0x01, 0x0C], Header::decode), Err(refused(17, 0x08)));
    for kind in [1].into_iter().chain(8..=15) {
        assert_eq!(read(&[kind << 4], Header::decode), Err(refused(17, u64::from(kind) << 4)));
    }
    // bit 3 of the other two is ignored, as every low bit
    let simple = SimpleAck { invoke_id: 1, service_choice: WriteProperty };
    assert_eq!(read(&[0x28, 0x01, 0x0F], Header::decode), Ok((Header::SimpleAck(simple), 3)));
    let segment = SegmentAck { invoke_id: 1, sequence_num: 2, proposed_window_size: 3 };
    let flagged = [0x43, 0x01, 0x02, 0x03];
    assert_eq!(read(&flagged, Header::decode), Ok((Header::SegmentAck(segment), 4)));
    // 02, K2: bit 0 of an abort says that a server sent it; what stands behind a reason is the body
    let reject = Header::Reject(Reject { invoke_id: 7, reason: 9 });
    for low in 0..=15 {
        assert_eq!(read(&[0x60 + low, 7, 9, 0x3F], Header::decode), Ok((reject, 3)));
        let abort = Abort { server: low % 2 == 1, invoke_id: 7, reason: 4 };
        let sent = [0x70 + low, 7, 4, 0x3F];
        assert_eq!(read(&sent, Header::decode), Ok((Header::Abort(abort), 3)));
    }
}
