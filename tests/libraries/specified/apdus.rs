//! APDUs: the crate `apci` (IEC 60870-5-104, 5.1).
use apci::{
    Apdu, ApduRef, Assembler, Front, FrontRef, Received, Uf, Why, encode, front, front_ref,
};

/// An S frame, N(R) 1.
const ACKNOWLEDGE: [u8; 6] = [0x68, 0x04, 0x01, 0x00, 0x02, 0x00];

#[test]
fn apdus(rt: HostRuntime) {
    let acknowledge = ApduRef::S { nr: 1 };
    assert!(rt; front_ref(&ACKNOWLEDGE) == FrontRef::Whole(acknowledge, 6));
    // An S frame of a wrong length.
    assert_eq!(rt; front(&[0x68, 0x06, 0x01]), Front::Never(1, Why::NotFour));
    let start = Apdu::U(Uf::StartCon);
    assert!(rt; encode(&start).as_slice() == [0x68, 0x04, 0x0B, 0x00, 0x00, 0x00].as_slice());
    let mut assembler = Assembler::new();
    assert_eq!(rt; assembler.feed(&ACKNOWLEDGE[..3]), (3, Received::More));
    assert_eq!(rt; assembler.feed(&ACKNOWLEDGE[3..]), (3, Received::Whole));
    assert_eq!(rt; assembler.take(), Some(Apdu::S { nr: 1 }));
    assert_eq!(rt;
        assembler.feed(&[0x00, 0x68]),
        (2, Received::Never(0, Why::Start))
    );
    assert_eq!(rt; assembler.looked(), 7);
    assembler.clear();
    assert_eq!(rt; assembler.feed(&ACKNOWLEDGE), (6, Received::Whole));
}
