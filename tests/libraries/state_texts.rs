//! The text of lines, and the sum.
use checkpoint::{Lines, Sheet, StateFault};
use statetext::{Octets, Sum, TextLines, TextSheet};
use std::test::Fail;

#[derive(Drop)]
struct Row {
    octets: Vec<u8>,
}

impl Octets for Row {
    ghost appended = { λ row. row.octets.items };

    fn append(&mut self, octets: &[u8]) -> Result<(), StateFault> {
        match self.octets.extend_from_slice(octets) {
            Ok(()) => Ok(()),
            Err(_) => Err(StateFault::NoMemory),
        }
    }
}

#[test]
fn sums_octets(rt: HostRuntime) {
    for (octets, want) in [
        (b"".as_slice(), 0),
        (b"123456789".as_slice(), 0xcbf4_3926),
        (
            b"The quick brown fox jumps over the lazy dog".as_slice(),
            0x414f_a339,
        ),
    ] {
        let mut sum = Sum::new();
        sum.add(octets);
        assert_eq!(rt; sum.value(), want);
    }
}

#[test]
fn puts_and_reads_lines(rt: HostRuntime) -> Result<(), Fail> {
    let octets = Vec::new(rt.alloc());
    let mut sheet = TextSheet::new(rt.alloc(), Row { octets });
    sheet.put(&[0, 10, u64::MAX])?;
    sheet.put(&[])?;
    sheet.put_octets(&[0, 0x5a, 0xff])?;
    sheet.put(&[7])?;
    let text = sheet.into_octets().octets;
    assert_eq!(rt;
        text.as_slice(),
        b"0 10 18446744073709551615\n\nx005aff\n7\n".as_slice()
    );
    let mut lines = TextLines::new(rt.alloc(), text);
    let (mut numbers, mut octets) = (Vec::new(rt.alloc()), Vec::new(rt.alloc()));
    lines.next(&mut numbers)?;
    assert_eq!(rt; numbers.as_slice(), [0, 10, u64::MAX].as_slice());
    lines.next_octets(&mut octets)?;
    assert!(rt; octets.is_empty());
    lines.next(&mut numbers)?;
    assert_eq!(rt; numbers.as_slice(), [0, 0x5a, 0xff].as_slice());
    lines.next_octets(&mut octets)?;
    assert_eq!(rt; octets.as_slice(), [7].as_slice());
    assert_eq!(rt; lines.next(&mut numbers), Err(StateFault::Wrong));
    Ok(())
}

#[test]
fn refuses_other_lines(rt: HostRuntime) -> Result<(), Fail> {
    for text in [
        b"01\n".as_slice(),
        b"1  2\n".as_slice(),
        b" 1\n".as_slice(),
        b"1 \n".as_slice(),
        b"18446744073709551616\n".as_slice(),
        b"+1\n".as_slice(),
        b"x0\n".as_slice(),
        b"xg0\n".as_slice(),
        b"12".as_slice(),
        b"".as_slice(),
        b"1\r\n".as_slice(),
    ] {
        let mut lines = TextLines::new(rt.alloc(), Vec::from_slice(rt.alloc(), text)?);
        let mut numbers = Vec::new(rt.alloc());
        assert_eq!(rt; lines.next(&mut numbers), Err(StateFault::Wrong));
    }
    let mut lines = TextLines::new(rt.alloc(), Vec::from_slice(rt.alloc(), b"256\n")?);
    let mut octets = Vec::new(rt.alloc());
    assert_eq!(rt; lines.next_octets(&mut octets), Err(StateFault::Wrong));
    Ok(())
}
