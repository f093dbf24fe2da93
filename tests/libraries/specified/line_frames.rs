//! Frames of the line: the crate `ft12` (IEC 60870-5-1, 6.2.4.2).
use ft12::{
    Assembler, Frame, FrameRef, Front, FrontRef, LinkSize, Received, Why, encode, front, front_ref,
};

/// A class 2 poll of station 1, with FCB and FCV.
const POLL: [u8; 5] = [0x10, 0x7B, 0x01, 0x7C, 0x16];

/// A report whose sum is one too many.
const WRONG_SUM: [u8; 15] = [
    0x68, 0x09, 0x09, 0x68, 0x08, 0x01, 0x01, 0x01, 0x03, 0x01, 0x64, 0x00, 0x01, 0x75, 0x16,
];

#[test]
fn frames_of_the_line(rt: HostRuntime) {
    let poll = FrameRef::Fixed { c: 0x7B, a: 1 };
    assert!(rt; front_ref(LinkSize::One, &POLL) == FrontRef::Whole(poll, 5));
    assert_eq!(rt;
        front(LinkSize::One, &WRONG_SUM),
        Front::Never(13, Why::Sum)
    );
    // A status request to station 258.
    let status = Frame::Fixed { c: 0x49, a: 258 };
    assert!(rt;
        encode(LinkSize::Two, &status).as_slice() == [0x10, 0x49, 0x02, 0x01, 0x4C, 0x16].as_slice()
    );
    let mut assembler = Assembler::new(LinkSize::One);
    assert_eq!(rt; assembler.feed(&POLL[..2]), (2, Received::More));
    let poll = Frame::Fixed { c: 0x7B, a: 1 };
    assert_eq!(rt; assembler.feed(&POLL[2..]), (3, Received::Frame(poll)));
    assert_eq!(rt;
        assembler.feed(&[0x00, 0x00]),
        (2, Received::Never(0, Why::Start))
    );
    assert_eq!(rt; assembler.feed(&POLL), (5, Received::Deaf));
    assert_eq!(rt; assembler.looked(), 6);
    assembler.clear();
    assert_eq!(rt;
        assembler.feed(&[0xE5]),
        (1, Received::Frame(Frame::Single))
    );
}
