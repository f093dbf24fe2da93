//! ASDUs: the crate `asdu` (IEC 60870-5-101, 7.1 and 7.2).
use asdu::{
    CaSize, CauseSize, Head, IoaSize, Refused, Sizes, can_write, head, is_plain_command,
    is_tagged_command, read, retag, translate, untag, write,
};
use elements::Cp56;
use std::test::Fail;

/// Cause and common address of one octet, object address of two.
const LINE: Sizes = Sizes {
    cause: CauseSize::One,
    ca: CaSize::One,
    ioa: IoaSize::Two,
};

/// The single point 100 is on, as a line and as a connection has it.
const POINT: [u8; 7] = [0x01, 0x01, 0x03, 0x01, 0x64, 0x00, 0x01];

const SENT_POINT: [u8; 10] = [0x01, 0x01, 0x03, 0x00, 0x01, 0x00, 0x64, 0x00, 0x00, 0x01];

/// A single command, on, to object 10, with the tag of Thursday 2024-02-29 12:34:56.789; and
/// without it.
const TAGGED: [u8; 17] = [
    0x3A, 0x01, 0x06, 0x00, 0x01, 0x00, 0x0A, 0x00, 0x00, 0x01, 0xD5, 0xDD, 0x22, 0x0C, 0x9D, 0x02,
    0x18,
];

const PLAIN: [u8; 10] = [0x2D, 0x01, 0x06, 0x00, 0x01, 0x00, 0x0A, 0x00, 0x00, 0x01];

#[test]
fn asdus_are_read_and_carried(rt: HostRuntime) -> Result<(), Fail> {
    let wanted = Head {
        kind: 1,
        vsq: 1,
        cause: 3,
        originator: 0,
        ca: 1,
        ioa: 100,
    };
    assert_eq!(rt; head(LINE, &POINT), Some(wanted));
    assert!(rt; read(LINE, &POINT[..6]) == Err(Refused(4)));
    let Ok(point) = read(LINE, &POINT) else {
        assert!(rt; false);
        return Ok(());
    };
    let mut objects = point.objects();
    let object = objects.next();
    assert!(rt; object.is_some_and(|it| it.address == 100 && it.element == [1].as_slice()));
    assert!(rt; objects.next().is_none());
    let pieces = translate(&point);
    assert!(rt; matches!(pieces.as_slice(), [piece] if piece.as_slice() == SENT_POINT.as_slice()));
    Ok(())
}

/// Whether the ASDU of a connection is written in the sizes of the line with these octets.
fn is_written(octets: &[u8], wanted: &[u8]) -> bool {
    match read(Sizes::TCP, octets) {
        Ok(asdu) => can_write(LINE, &asdu) && write(LINE, &asdu).as_slice() == wanted,
        Err(_) => false,
    }
}

/// Whether the tagged command is known without its tag by these octets.
fn is_untagged(tagged: &[u8], wanted: &[u8]) -> bool {
    match read(Sizes::TCP, tagged) {
        Ok(asdu) if is_tagged_command(asdu.kind) && asdu.number() == 1 => {
            untag(&asdu).as_slice() == wanted
        }
        _ => false,
    }
}

/// Whether the command is known with the tag by these octets.
fn is_retagged(plain: &[u8], tag: [u8; 7], wanted: &[u8]) -> bool {
    match read(Sizes::TCP, plain) {
        Ok(asdu) if is_plain_command(asdu.kind) && asdu.number() == 1 => {
            retag(&asdu, &Cp56(tag)).as_slice() == wanted
        }
        _ => false,
    }
}

#[test]
fn commands_are_written(rt: HostRuntime) {
    let line_command = [0x2D, 0x01, 0x06, 0x01, 0x0A, 0x00, 0x01];
    assert!(rt; is_written(&PLAIN, &line_command));
    assert!(rt; is_untagged(&TAGGED, &PLAIN));
    let tag = [0xD5, 0xDD, 0x22, 0x0C, 0x9D, 0x02, 0x18];
    assert!(rt; is_retagged(&PLAIN, tag, &TAGGED));
}
