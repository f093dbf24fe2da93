//! Traces: the crate `traces`.
use gateway::{Action, Entry, Port};
use session::Close;
use std::test::Fail;
use traces::{TextFault, Trace, read_trace};

#[test]
fn a_trace(rt: HostRuntime) -> Result<(), Fail> {
    let alloc = rt.alloc();
    assert!(rt; read_trace(alloc, b"7 T\n8 S 1\n").err() == Some(TextFault::Line(2)));
    let entries = read_trace(alloc, b"# a comment\n10 O\n20 S 100B")?;
    let octets = [0x10, 0x0B];
    assert!(rt;
        matches!(
            entries.as_slice(),
            [Entry::Open(10), Entry::Line(20, it)] if it.as_slice() == octets.as_slice()
        )
    );
    let mut port = Trace::<Vec<u8>>::new(alloc, entries, Vec::new(alloc));
    assert!(rt; port.put(20, &Action::Close(Close::Replaced)));
    assert!(rt; !port.refused());
    assert!(rt; port.into_writer().as_slice() == b"20 > X 7\n".as_slice());
    Ok(())
}
