//! Looks at a line whose octets come in pieces, and writes that are taken in part.
use super::noted::PiecewiseStream;
use super::{read_line, write_in_two};
use crate::ends::Got;

/// What the first look and the second one find, where these octets come so many a call.
fn found(octets: &[u8], size: usize) -> (Got, Got) {
    let mut stream = PiecewiseStream::new(octets, size);
    let mut buf = [0; 1024];
    let first = read_line(&mut stream, &mut buf);
    (first, read_line(&mut stream, &mut buf))
}

/// A report of one single point.
const REPORT: [u8; 14] = [0x68, 8, 8, 0x68, 8, 1, 1, 1, 3, 1, 10, 1, 0x1A, 0x16];

#[test]
fn an_answer_octet_by_octet_is_one_look(rt: HostRuntime) {
    for size in [1, 2, 8, 14] {
        assert_eq!(rt; found(&REPORT, size), (Got::Octets(14), Got::Quiet));
    }
    // What doesn't end as a frame is given where no more comes.
    assert_eq!(rt; found(&REPORT[..5], 2), (Got::Octets(5), Got::Quiet));
    // No frame is waited behind.
    assert_eq!(rt;
        found(&[0xE5, 0x10, 0x0B], 1),
        (Got::Octets(1), Got::Octets(2))
    );
    // A look ends behind sixteen calls.
    assert_eq!(rt; found(&[0; 20], 1), (Got::Octets(16), Got::Octets(4)));
    assert_eq!(rt; found(&[], 1), (Got::Quiet, Got::Quiet));
}

#[test]
fn octets_stand_in_their_order(rt: HostRuntime) {
    let mut stream = PiecewiseStream::new(&REPORT, 3);
    let mut buf = [0; 1024];
    let _found = read_line(&mut stream, &mut buf);
    assert_eq!(rt; &buf[..14], REPORT.as_slice());
}

#[test]
fn a_write_is_taken_in_two_calls(rt: HostRuntime) {
    for size in [14, 13, 7] {
        let mut stream = PiecewiseStream::new(&[], size);
        assert!(rt; write_in_two(&mut stream, &REPORT), "{size}");
    }
    let mut stream = PiecewiseStream::new(&[], 6);
    assert!(rt; !write_in_two(&mut stream, &REPORT));
}
