use apci::{Apdu, Front, FrontRef, Short, Uf, front, front_ref};
use arrayvec::ArrayVec;
use session::{Close, FrameOrigin, NoMemory, Session, Taken, Unacknowledged};
use std::alloc::Global;
use std::test::Fail;

/// A call, and what it is to answer.
#[derive(Clone, Copy)]
enum Step {
    Open(u64),
    Cut,
    /// An S or U frame comes at this moment.
    Take(Short, u64, Taken),
    /// An I frame with these N(S) and N(R) comes at this moment.
    Report(u16, u16, u64, Taken),
    Acked(usize, usize),
    Confirm(Option<Short>),
    /// An I frame of this kind goes out at this moment, with these N(S) and N(R).
    Send(FrameOrigin, u64, u16, u16),
    /// No I frame may go out.
    Holds,
    /// So many I frames of the queue go out at 6, from this N(S) on.
    SendMany(u16, u16),
    /// I frames 1 to 32767 go out at 6, each third of them an own answer.
    SendWindow,
    /// I frames 0 to 32767 go out at 6, and each is acknowledged before the next.
    AcknowledgeEach,
    /// I frames 0 to 32767 come at 6, and an S frame is due after each eighth.
    ReportAll,
    Pull(u64, Option<Short>),
    Due(u64, Option<Close>),
    Runs(bool),
    IsOpen(bool),
}

/// An I frame. What its ASDU says is no matter here.
fn report(ns: u16, nr: u16) -> Apdu {
    Apdu::I {
        ns,
        nr,
        asdu: ArrayVec::new(),
    }
}

/// Whether an I frame may go out, and has these N(S) and N(R).
fn sends(session: &mut Session, kind: FrameOrigin, now: u64, numbers: (u16, u16)) -> bool {
    session.may_send() && session.sent(kind, now) == numbers
}

/// Whether so many I frames go out, from this N(S) on.
fn sends_many(session: &mut Session, first: u16, count: u16) -> bool {
    for place in 0..count {
        let ns = first.wrapping_add(place) % 32768;
        if !sends(session, FrameOrigin::Queue, 6, (ns, 0)) {
            return false;
        }
    }
    true
}

/// Whether I frames 1 to 32767 go out, each third of them an own answer.
fn sends_window(session: &mut Session) -> bool {
    for ns in 1..=32767u16 {
        let kind = if ns % 3 == 0 {
            FrameOrigin::Own
        } else {
            FrameOrigin::Queue
        };
        if !sends(session, kind, 6, (ns, 0)) {
            return false;
        }
    }
    true
}

/// Whether I frames 0 to 32767 go out, each acknowledged before the next.
fn acknowledges_each(session: &mut Session) -> bool {
    for ns in 0..32768u16 {
        let acknowledge = Apdu::S {
            nr: (ns + 1) % 32768,
        };
        let goes = sends(session, FrameOrigin::Queue, 6, (ns, 0));
        if !goes || session.take(&acknowledge, 6) != Taken::Nothing || session.acked() != (1, 0) {
            return false;
        }
    }
    true
}

/// Whether I frames 0 to 32767 come, with an S frame after each eighth.
fn reports_all(session: &mut Session) -> bool {
    for ns in 0..32768u16 {
        let nr = (ns + 1) % 32768;
        let due = if ns % 8 == 7 {
            Some(Short::S { nr })
        } else {
            None
        };
        if session.take(&report(ns, 0), 6) != Taken::Asdu
            || session.pull(6) != due.map(|frame| frame.to_apdu())
        {
            return false;
        }
    }
    true
}

/// Makes the call, and says whether the answer was the one.
fn answers(session: &mut Session, step: &Step) -> bool {
    match step {
        Step::Open(now) => session.open(*now),
        Step::Cut => session.cut(),
        Step::Take(apdu, now, taken) => return session.take(&apdu.to_apdu(), *now) == *taken,
        Step::Report(ns, nr, now, taken) => {
            return session.take(&report(*ns, *nr), *now) == *taken;
        }
        Step::Acked(queue, own) => return session.acked() == (*queue, *own),
        Step::Confirm(apdu) => return session.confirm() == apdu.map(|frame| frame.to_apdu()),
        Step::Send(kind, now, ns, nr) => {
            return sends(session, *kind, *now, (*ns, *nr));
        }
        Step::SendMany(first, count) => return sends_many(session, *first, *count),
        Step::SendWindow => return sends_window(session),
        Step::AcknowledgeEach => return acknowledges_each(session),
        Step::ReportAll => return reports_all(session),
        Step::Holds => return !session.may_send(),
        Step::Pull(now, apdu) => return session.pull(*now) == apdu.map(|frame| frame.to_apdu()),
        Step::Due(now, close) => return session.due(*now) == *close,
        Step::Runs(runs) => return session.runs() == *runs,
        Step::IsOpen(open) => return session.is_open() == *open,
    }
    true
}

/// Whether the calls, in their order, answer what they are to.
fn all_answer(session: &mut Session, steps: &[Step]) -> bool {
    steps.iter().all(|step| answers(session, step))
}

/// A session with w 8, t1 15 s, t2 10 s and t3 20 s.
fn session(alloc: Global, k: u16) -> Result<Session, NoMemory> {
    Session::new(alloc, k, 8, 15000, 10000, 20000)
}

/// The connection opens at 0, and data transfer is started at 5.
const STARTED: &[Step] = &[
    Step::Open(0),
    Step::Take(Short::U(Uf::StartAct), 5, Taken::Nothing),
    Step::Confirm(Some(Short::U(Uf::StartCon))),
];

/// A session after these.
fn started(alloc: Global, k: u16) -> Result<Session, NoMemory> {
    let mut session = session(alloc, k)?;
    session.open(0);
    let _ = session.take(&Apdu::U(Uf::StartAct), 5);
    let _ = session.confirm();
    Ok(session)
}

/// What happens on a connection, in the order of its calls: by whether its k is 32767 or 12, what
/// leads up to it, and what it is about.
type Course = (&'static str, bool, &'static [Step], &'static [Step]);

/// Starts, stops, timers and cuts.
const COURSES: [Course; 4] = [
    (
        "a frame waits for t1",
        false,
        &[],
        &[
            Step::Open(0),
            Step::IsOpen(true),
            Step::Holds,
            Step::Take(Short::U(Uf::StartAct), 5, Taken::Nothing),
            Step::Confirm(Some(Short::U(Uf::StartCon))),
            Step::Confirm(None),
            Step::Runs(true),
            Step::Send(FrameOrigin::Queue, 6, 0, 0),
            Step::Due(15005, None),
            Step::Due(15006, Some(Close::Timeout)),
        ],
    ),
    (
        "a stop is confirmed last",
        false,
        STARTED,
        &[
            Step::Send(FrameOrigin::Queue, 6, 0, 0),
            Step::Take(Short::U(Uf::StopAct), 7, Taken::Nothing),
            Step::Confirm(None),
            Step::Holds,
            Step::Take(Short::S { nr: 1 }, 8, Taken::Nothing),
            Step::Confirm(Some(Short::U(Uf::StopCon))),
            Step::Confirm(None),
            Step::Runs(false),
            // An S frame goes first where received frames aren't acknowledged.
            Step::Take(Short::U(Uf::StartAct), 9, Taken::Nothing),
            Step::Confirm(Some(Short::U(Uf::StartCon))),
            Step::Report(0, 1, 10, Taken::Asdu),
            Step::Take(Short::U(Uf::StopAct), 11, Taken::Nothing),
            Step::Confirm(Some(Short::S { nr: 1 })),
            Step::Confirm(Some(Short::U(Uf::StopCon))),
            Step::Confirm(None),
            // A STARTDT act forgets a pending STOPDT act.
            Step::Take(Short::U(Uf::StartAct), 12, Taken::Nothing),
            Step::Confirm(Some(Short::U(Uf::StartCon))),
            Step::Send(FrameOrigin::Queue, 13, 1, 1),
            Step::Take(Short::U(Uf::StopAct), 14, Taken::Nothing),
            Step::Confirm(None),
            Step::Take(Short::U(Uf::StartAct), 15, Taken::Nothing),
            Step::Confirm(Some(Short::U(Uf::StartCon))),
            Step::Take(Short::S { nr: 2 }, 16, Taken::Nothing),
            Step::Confirm(None),
            Step::Runs(true),
        ],
    ),
    (
        "timers run out",
        false,
        STARTED,
        &[
            // A test is due t3 after the latest frame, which came at 5, and waits for t1.
            Step::Pull(20004, None),
            Step::Pull(20005, Some(Short::U(Uf::TestAct))),
            Step::Pull(20006, None),
            Step::Due(35004, None),
            Step::Due(35005, Some(Close::Timeout)),
            Step::Take(Short::U(Uf::TestCon), 35005, Taken::Nothing),
            Step::Due(35005, None),
            Step::Take(Short::U(Uf::TestAct), 35006, Taken::Nothing),
            Step::Confirm(Some(Short::U(Uf::TestCon))),
            // A received frame is acknowledged after t2, or by an I frame.
            Step::Report(0, 0, 40000, Taken::Asdu),
            Step::Pull(49999, None),
            Step::Pull(50000, Some(Short::S { nr: 1 })),
            Step::Pull(50000, None),
            Step::Report(1, 0, 50001, Taken::Asdu),
            Step::Send(FrameOrigin::Own, 50002, 0, 2),
            Step::Pull(60001, None),
        ],
    ),
    (
        "nothing is left of a connection that was cut",
        false,
        STARTED,
        &[
            Step::Report(0, 0, 6, Taken::Asdu),
            Step::Send(FrameOrigin::Queue, 6, 0, 1),
            Step::Take(Short::U(Uf::TestAct), 7, Taken::Nothing),
            Step::Cut,
            Step::IsOpen(false),
            Step::Runs(false),
            Step::Holds,
            Step::Due(99999, None),
            Step::Confirm(None),
            Step::Pull(99999, None),
            Step::Open(100000),
            Step::Confirm(None),
            Step::Take(Short::U(Uf::StartAct), 100001, Taken::Nothing),
            Step::Send(FrameOrigin::Queue, 100002, 0, 0),
        ],
    ),
];

/// Frames that close the connection.
const FAULTS: [Course; 6] = [
    (
        "a report before data transfer is started",
        false,
        &[],
        &[
            Step::Open(0),
            Step::Report(7, 7, 1, Taken::Close(Close::Stopped)),
            Step::Acked(0, 0),
        ],
    ),
    (
        "another N(S)",
        false,
        STARTED,
        &[Step::Report(1, 7, 6, Taken::Close(Close::SendNumber))],
    ),
    (
        "an N(R) of what never went out",
        false,
        STARTED,
        &[Step::Report(0, 1, 6, Taken::Close(Close::ReceiveNumber))],
    ),
    (
        "an N(R) of what never went out, in an S frame",
        false,
        STARTED,
        &[Step::Take(Short::S { nr: 1 }, 6, Taken::Close(Close::ReceiveNumber))],
    ),
    (
        "the greatest N(R) of what never went out",
        false,
        STARTED,
        &[Step::Take(
            Short::S { nr: 32767 },
            6,
            Taken::Close(Close::ReceiveNumber),
        )],
    ),
    (
        "an N(R) may not go back behind what was acknowledged",
        false,
        STARTED,
        &[
            Step::Send(FrameOrigin::Queue, 6, 0, 0),
            Step::Take(Short::S { nr: 1 }, 7, Taken::Nothing),
            Step::Take(Short::S { nr: 0 }, 8, Taken::Close(Close::ReceiveNumber)),
            Step::Acked(0, 0),
            // No I frame may come behind a STOPDT act.
            Step::Take(Short::U(Uf::StopAct), 9, Taken::Nothing),
            Step::Report(0, 1, 10, Taken::Close(Close::Stopped)),
        ],
    ),
];

/// Numbers that run over.
const ROUNDS: [Course; 4] = [
    (
        "numbers of frames that go out run over",
        false,
        STARTED,
        &[
            Step::AcknowledgeEach,
            Step::Send(FrameOrigin::Queue, 6, 0, 0),
        ],
    ),
    (
        "numbers of frames that come run over",
        false,
        STARTED,
        &[
            Step::ReportAll,
            Step::Report(0, 0, 6, Taken::Asdu),
            Step::Send(FrameOrigin::Own, 6, 0, 1),
        ],
    ),
    (
        "a stop is pending while numbers run over",
        true,
        STARTED,
        &[
            // 40000 frames go out, and 20000 of them are acknowledged.
            Step::SendMany(0, 20000),
            Step::Take(Short::S { nr: 20000 }, 6, Taken::Nothing),
            Step::SendMany(20000, 20000),
            Step::Take(Short::U(Uf::StopAct), 7, Taken::Nothing),
            Step::Confirm(None),
            Step::Take(Short::S { nr: 32767 }, 8, Taken::Nothing),
            Step::Acked(12767, 0),
            Step::Confirm(None),
            Step::Take(Short::S { nr: 7231 }, 9, Taken::Nothing),
            Step::Acked(7232, 0),
            Step::Confirm(None),
            Step::Take(Short::S { nr: 7232 }, 10, Taken::Nothing),
            Step::Acked(1, 0),
            Step::Confirm(Some(Short::U(Uf::StopCon))),
        ],
    ),
    (
        "one N(R) acknowledges the whole window",
        true,
        STARTED,
        &[
            Step::Send(FrameOrigin::Queue, 6, 0, 0),
            Step::Take(Short::S { nr: 1 }, 6, Taken::Nothing),
            Step::SendWindow,
            Step::Holds,
            Step::Take(Short::S { nr: 0 }, 6, Taken::Nothing),
            Step::Acked(21845, 10922),
            Step::Send(FrameOrigin::Queue, 6, 0, 0),
        ],
    ),
];

/// Whether the calls of a new session answer what they are to: those that lead up to others, and
/// these.
fn answers_of(
    alloc: Global,
    is_wide: bool,
    before: &[Step],
    steps: &[Step],
) -> Result<(bool, bool), NoMemory> {
    let mut session = session(alloc, if is_wide { 32767 } else { 12 })?;
    let led = all_answer(&mut session, before);
    let answered = all_answer(&mut session, steps);
    Ok((led, answered))
}

/// The first of these whose calls aren't all answered as they are to be.
fn first_wrong_of(alloc: Global, courses: &[Course]) -> Result<Option<&'static str>, NoMemory> {
    for (name, is_wide, before, steps) in courses {
        let (led, answered) = answers_of(alloc, *is_wide, before, steps)?;
        if !led || !answered {
            return Ok(Some(*name));
        }
    }
    Ok(None)
}

fn first_wrong_course(alloc: Global) -> Result<Option<&'static str>, NoMemory> {
    first_wrong_of(alloc, &COURSES)
}

fn first_wrong_fault(alloc: Global) -> Result<Option<&'static str>, NoMemory> {
    first_wrong_of(alloc, &FAULTS)
}

fn first_wrong_round(alloc: Global) -> Result<Option<&'static str>, NoMemory> {
    first_wrong_of(alloc, &ROUNDS)
}

// Each list is gone through by a function of its own: what a function costs the proof grows faster
// than the constants that it names.
#[test]
fn calls_answer_in_their_order(rt: HostRuntime) -> Result<(), Fail> {
    assert_eq!(rt; first_wrong_course(rt.alloc())?, None);
    assert_eq!(rt; first_wrong_fault(rt.alloc())?, None);
    assert_eq!(rt; first_wrong_round(rt.alloc())?, None);
    Ok(())
}

/// The causes of a close, in the order of their numbers, from 1.
const CAUSES: [Close; 7] = [
    Close::Grammar,
    Close::SendNumber,
    Close::ReceiveNumber,
    Close::Stopped,
    Close::Timeout,
    Close::OwnAnswers,
    Close::Replaced,
];

#[test]
fn the_ring_has_what_is_unacknowledged(rt: HostRuntime) -> Result<(), Fail> {
    for (i, cause) in CAUSES.iter().enumerate() {
        assert!(rt; *cause as usize == i + 1);
    }
    let mut session = started(rt.alloc(), 12)?;
    let steps = [
        Step::Send(FrameOrigin::Queue, 6, 0, 0),
        Step::Send(FrameOrigin::Own, 7, 1, 0),
        Step::Send(FrameOrigin::Own, 7, 2, 0),
        Step::Take(Short::S { nr: 1 }, 8, Taken::Nothing),
        Step::Acked(1, 0),
    ];
    assert!(rt; all_answer(&mut session, &steps));
    let own = Unacknowledged {
        kind: FrameOrigin::Own,
        moment: 7,
    };
    let ring = session.into_ring();
    assert!(rt; ring.len() == 2);
    for frame in ring.iter() {
        assert!(rt; *frame == own);
    }
    Ok(())
}

/// Frames as they come after one I frame went out, and what they lead to: interrogations, and
/// frames without an ASDU.
const FRAMES: [(&[u8], Taken); 9] = [
    (
        &[
            0x68, 0x0E, 0x02, 0x00, 0x00, 0x00, 0x64, 0x01, 0x06, 0x00, 0x01, 0x00, 0x00, 0x00,
            0x00, 0x14,
        ],
        Taken::Close(Close::SendNumber),
    ),
    (
        &[
            0x68, 0x0E, 0x00, 0x00, 0x04, 0x00, 0x64, 0x01, 0x06, 0x00, 0x01, 0x00, 0x00, 0x00,
            0x00, 0x14,
        ],
        Taken::Close(Close::ReceiveNumber),
    ),
    (
        &[
            0x68, 0x0E, 0x00, 0x00, 0x00, 0x00, 0x64, 0x01, 0x06, 0x00, 0x01, 0x00, 0x00, 0x00,
            0x00, 0x14,
        ],
        Taken::Asdu,
    ),
    (
        &[0x68, 0x04, 0x01, 0x00, 0x04, 0x00],
        Taken::Close(Close::ReceiveNumber),
    ),
    (&[0x68, 0x04, 0x01, 0x00, 0x02, 0x00], Taken::Nothing),
    (&[0x68, 0x04, 0x43, 0x00, 0x00, 0x00], Taken::Nothing),
    (
        &[
            0x68, 0x0E, 0x02, 0x00, 0x02, 0x00, 0x64, 0x01, 0x06, 0x00, 0x01, 0x00, 0x00, 0x00,
            0x00, 0x14,
        ],
        Taken::Asdu,
    ),
    (&[0x68, 0x04, 0x13, 0x00, 0x00, 0x00], Taken::Nothing),
    (
        &[
            0x68, 0x0E, 0x04, 0x00, 0x02, 0x00, 0x64, 0x01, 0x06, 0x00, 0x01, 0x00, 0x00, 0x00,
            0x00, 0x14,
        ],
        Taken::Close(Close::Stopped),
    ),
];

/// Whether a frame that is lent, and a copy of it, lead to this and to the same state.
fn leads_to(lent: &mut Session, kept: &mut Session, octets: &[u8], taken: Taken) -> bool {
    let (FrontRef::Whole(frame, _), Front::Whole(copy, _)) = (front_ref(octets), front(octets))
    else {
        return false;
    };
    if copy.as_ref() != frame || lent.take_ref(frame, 7) != taken {
        return false;
    }
    kept.take(&copy, 7) == taken && are_alike(lent, kept)
}

/// Whether two sessions acknowledged the same, and put out the same.
fn are_alike(lent: &mut Session, kept: &mut Session) -> bool {
    lent.acked() == kept.acked()
        && lent.confirm() == kept.confirm()
        && lent.pull(10007) == kept.pull(10007)
}

/// How many of the frames, in their order, lead to the same whether they are lent or copied.
fn count_alike(lent: &mut Session, kept: &mut Session) -> usize {
    let mut count: usize = 0;
    let send = Step::Send(FrameOrigin::Queue, 6, 0, 0);
    if !answers(lent, &send) || !answers(kept, &send) {
        return count;
    }
    for (octets, taken) in FRAMES {
        if !leads_to(lent, kept, octets, taken) {
            return count;
        }
        count = count.wrapping_add(1);
    }
    count
}

#[test]
fn lent_frames_lead_to_the_same(rt: HostRuntime) -> Result<(), Fail> {
    let mut lent = started(rt.alloc(), 12)?;
    let mut kept = started(rt.alloc(), 12)?;
    let count = count_alike(&mut lent, &mut kept);
    assert!(rt; count == FRAMES.len(), "{count}");
    Ok(())
}
