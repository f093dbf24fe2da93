//! One connection: the crate `session` (IEC 60870-5-104, 5.1 to 5.5).
use apci::{Apdu, ApduRef, Uf};
use session::{Close, FrameOrigin, NoMemory, Session, Taken};
use std::process::Abort;

#[test]
fn a_connection(rt: HostRuntime) -> Result<(), NoMemory> {
    let mut session = Session::new(rt.alloc(), 12, 8, 15_000, 10_000, 20_000)?;
    starts_and_stops(&rt, &mut session);
    assert_eq!(rt; unacknowledged(session), 0);
    Ok(())
}

/// It is opened, started and stopped again.
fn starts_and_stops(rt: &impl Abort, session: &mut Session) {
    session.open(0);
    session.cut();
    session.open(0);
    // No I frame before a start.
    assert!(rt; !session.may_send());
    assert_eq!(rt; session.take(&Apdu::U(Uf::StartAct), 5), Taken::Nothing);
    assert_eq!(rt; session.confirm(), Some(Apdu::U(Uf::StartCon)));
    let report = ApduRef::I {
        ns: 0,
        nr: 0,
        asdu: &[0x64, 0x01, 0x06, 0x00, 0x01, 0x00, 0x00, 0x00, 0x00, 0x14],
    };
    assert_eq!(rt; session.take_ref(report, 5), Taken::Asdu);
    assert_eq!(rt; session.due(15_005), None);
    assert!(rt; session.runs());
    assert!(rt; session.may_send());
    assert_eq!(rt; session.sent(FrameOrigin::Queue, 6), (0, 1));
    assert_eq!(rt; session.due(15_005), None);
    assert_eq!(rt; session.due(15_006), Some(Close::Timeout));
    // A stop is confirmed once no sent I frame is unacknowledged.
    assert_eq!(rt; session.take(&Apdu::U(Uf::StopAct), 7), Taken::Nothing);
    assert_eq!(rt; session.confirm(), None);
    assert!(rt; !session.runs());
    assert_eq!(rt; session.take(&Apdu::S { nr: 1 }, 8), Taken::Nothing);
    assert_eq!(rt; session.confirm(), Some(Apdu::U(Uf::StopCon)));
    // Without a frame for t3 the connection is tested.
    assert_eq!(rt; session.pull(20_007), None);
    assert_eq!(rt; session.pull(20_008), Some(Apdu::U(Uf::TestAct)));
    assert_eq!(rt; session.acked(), (1, 0));
}

/// How many frames it ends with that aren't acknowledged.
fn unacknowledged(session: Session) -> usize {
    session.into_ring().len()
}
