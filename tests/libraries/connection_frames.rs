use apci::{
    Apdu, ApduRef, Assembler, Front, FrontRef, Received, Short, Uf, Why, encode, front, front_ref,
    write_information,
};

/// The measured report of a normalised value: an I format with two objects.
const REPORT: [u8; 21] = [
    0x68, 0x13, 0x00, 0x00, 0x00, 0x00, 0x09, 0x82, 0x03, 0x00, 0x01, 0x00, 0x0A, 0x00, 0x00, 0x00,
    0x80, 0x00, 0xFF, 0xFF, 0x80,
];

/// The shortest I format: the last one before the counter runs over.
const LAST_NUMBER: [u8; 15] = [
    0x68, 0x0D, 0xFE, 0xFF, 0x00, 0x00, 0x64, 0x01, 0x06, 0x00, 0x01, 0x00, 0x00, 0x00, 0x00,
];

const ACKNOWLEDGE: [u8; 6] = [0x68, 0x04, 0x01, 0x00, 0x02, 0x00];

const FUNCTIONS: [(Uf, u8); 6] = [
    (Uf::StartAct, 0x07),
    (Uf::StartCon, 0x0B),
    (Uf::StopAct, 0x13),
    (Uf::StopCon, 0x23),
    (Uf::TestAct, 0x43),
    (Uf::TestCon, 0x83),
];

/// The same I format once the counter has run over, and N(R) hasn't yet.
const NEXT_NUMBER: [u8; 15] = [
    0x68, 0x0D, 0x00, 0x00, 0xFE, 0xFF, 0x64, 0x01, 0x06, 0x00, 0x01, 0x00, 0x00, 0x00, 0x00,
];

/// Whether these are the octets of a U frame, all ways.
fn is_function(function: Uf, octets: [u8; 6]) -> bool {
    let apdu = Apdu::U(function);
    encode(&apdu).as_slice() == octets.as_slice()
        && Short::U(function).to_octets() == octets
        && front(&octets) == Front::Whole(apdu, 6)
}

/// Whether these are the octets of an I frame with these N(S) and N(R), all ways.
fn is_information(octets: &[u8], ns: u16, nr: u16) -> bool {
    let asdu = &octets[6..];
    let apdu = ApduRef::I { ns, nr, asdu };
    front_ref(octets) == FrontRef::Whole(apdu, octets.len())
        && encode(&apdu.to_apdu()).as_slice() == octets
}

/// Octets that begin no APDU, the place that decides it or is reported, and why.
const REFUSED: [(&[u8], usize, Why); 21] = [
    (&[0x00], 0, Why::Start),
    (&[0xE5, 0x03, 0x05], 0, Why::Start),
    (&[0x68, 0x03], 1, Why::Length),
    (&[0x68, 0xFE], 1, Why::Length),
    (&[0x68, 0xFE, 0x03], 1, Why::Length),
    (&[0x68, 0x04, 0x03], 2, Why::Control),
    (&[0x68, 0x05, 0x03], 2, Why::Control),
    (&[0x68, 0x0D, 0xFF], 2, Why::Control),
    (&[0x68, 0x05, 0x07], 1, Why::NotFour),
    (&[0x68, 0x06, 0x01], 1, Why::NotFour),
    (&[0x68, 0xFD, 0x01], 1, Why::NotFour),
    (&[0x68, 0x0C, 0x00], 1, Why::Short),
    (&[0x68, 0x04, 0x00], 1, Why::Short),
    (&[0x68, 0x04, 0x01, 0x01], 3, Why::Control),
    (&[0x68, 0x04, 0x43, 0x01], 3, Why::Control),
    (&[0x68, 0x04, 0x01, 0x00, 0x01], 4, Why::Control),
    (&[0x68, 0x04, 0x43, 0x00, 0x02], 4, Why::Control),
    (&[0x68, 0x0D, 0x00, 0x00, 0x01], 4, Why::Control),
    (&[0x68, 0x04, 0x43, 0x00, 0x00, 0x01], 5, Why::Control),
    (&[0x68, 0x04, 0x01, 0x01, 0x01, 0x00], 3, Why::Control),
    (&[0x68, 0x04, 0x43, 0x01, 0x01, 0x01], 3, Why::Control),
];

/// Whether the octets are refused at this place for this, read or received.
fn is_refused(octets: &[u8], place: usize, why: Why) -> bool {
    if front(octets) != Front::Never(place, why)
        || front_ref(octets) != FrontRef::Never(place, why)
    {
        return false;
    }
    Assembler::new().feed(octets) == (octets.len(), Received::Never(place, why))
}

/// Whether all of them are refused so.
fn are_refused() -> bool {
    REFUSED
        .iter()
        .all(|(octets, place, why)| is_refused(octets, *place, *why))
}

#[test]
fn apdus_of_each_format_and_refusals(rt: HostRuntime) {
    for (function, control) in FUNCTIONS {
        assert!(rt; is_function(function, [0x68, 0x04, control, 0x00, 0x00, 0x00]));
    }
    assert!(rt; encode(&Apdu::S { nr: 1 }).as_slice() == ACKNOWLEDGE.as_slice());
    assert!(rt; Short::S { nr: 1 }.to_octets() == ACKNOWLEDGE);
    // What stands behind a frame is left.
    let more = [0x68, 0x04, 0x01, 0x00, 0x02, 0x00, 0xE5];
    assert!(rt; front_ref(&ACKNOWLEDGE[..3]) == FrontRef::More);
    assert!(rt; front_ref(&more) == FrontRef::Whole(ApduRef::S { nr: 1 }, 6));
    assert!(rt; front(&more) == Front::Whole(Apdu::S { nr: 1 }, 6));
    // Counters run modulo 32768.
    assert!(rt; is_information(&REPORT, 0, 0));
    assert!(rt; is_information(&LAST_NUMBER, 32767, 0));
    assert!(rt; is_information(&NEXT_NUMBER, 0, 32767));
    let mut octets = [0; 255];
    assert!(rt; write_information(&mut octets, 32767, 0, &LAST_NUMBER[6..]) == 15);
    assert!(rt; octets[..15] == LAST_NUMBER[..]);
    assert!(rt; are_refused());
    // A length from 5 to 12 is judged with the octet after it.
    for len in 4u8..=253 {
        assert!(rt; front(&[0x68, len]) == Front::More);
    }
    assert!(rt; front(&[]) == Front::More);
}

/// What a piece gives: how many octets are taken, what is received, and the APDU that is whole.
#[derive(PartialEq, Drop)]
struct Fed {
    taken: usize,
    arrived: Received,
    apdu: Option<Apdu>,
}

/// What a piece gives where no APDU is whole.
fn none_whole(taken: usize, arrived: Received) -> Fed {
    let apdu = None;
    Fed {
        taken,
        arrived,
        apdu,
    }
}

/// What a piece gives where this APDU is whole.
fn one_whole(taken: usize, apdu: Apdu) -> Fed {
    let arrived = Received::Whole;
    let apdu = Some(apdu);
    Fed {
        taken,
        arrived,
        apdu,
    }
}

/// What a piece gives.
fn feed_and_take(assembler: &mut Assembler, piece: &[u8]) -> Fed {
    let (taken, arrived) = assembler.feed(piece);
    let apdu = assembler.take();
    Fed {
        taken,
        arrived,
        apdu,
    }
}

/// What a piece gives where `front` answers this.
fn fed_by(taken: usize, front: Front) -> Fed {
    match front {
        Front::Whole(apdu, _) => one_whole(taken, apdu),
        Front::More => none_whole(taken, Received::More),
        Front::Never(place, why) => none_whole(taken, Received::Never(place, why)),
    }
}

/// APDUs of a connection with reports, commands and acknowledgements, and four beginnings of none.
const APDUS: [&[u8]; 30] = [
    &REPORT,
    &LAST_NUMBER,
    &ACKNOWLEDGE,
    &[
        0x68, 0x0E, 0x00, 0x00, 0x00, 0x00, 0x01, 0x01, 0x03, 0x00, 0x01, 0x00, 0x64, 0x00, 0x00,
        0x01,
    ],
    &[
        0x68, 0x0E, 0x18, 0x00, 0x00, 0x00, 0x01, 0x01, 0x03, 0x00, 0x01, 0x00, 0x64, 0x00, 0x00,
        0x01,
    ],
    &[
        0x68, 0x0E, 0x00, 0x00, 0x00, 0x00, 0x01, 0x01, 0x03, 0x00, 0x01, 0x00, 0x65, 0x00, 0x00,
        0x01,
    ],
    &[
        0x68, 0x0E, 0x02, 0x00, 0x00, 0x00, 0x01, 0x01, 0x03, 0x00, 0x01, 0x00, 0x65, 0x00, 0x00,
        0x01,
    ],
    &[
        0x68, 0x0E, 0x00, 0x00, 0x00, 0x00, 0x2D, 0x01, 0x06, 0x00, 0x01, 0x00, 0x0A, 0x00, 0x00,
        0x81,
    ],
    &[
        0x68, 0x0E, 0x00, 0x00, 0x02, 0x00, 0x2D, 0x01, 0x07, 0x00, 0x01, 0x00, 0x0A, 0x00, 0x00,
        0x81,
    ],
    &[
        0x68, 0x0E, 0x02, 0x00, 0x02, 0x00, 0x2D, 0x01, 0x06, 0x00, 0x01, 0x00, 0x0A, 0x00, 0x00,
        0x01,
    ],
    &[
        0x68, 0x0E, 0x00, 0x00, 0x02, 0x00, 0x2D, 0x01, 0x47, 0x00, 0x01, 0x00, 0x0A, 0x00, 0x00,
        0x01,
    ],
    &[
        0x68, 0x0E, 0x00, 0x00, 0x00, 0x00, 0x64, 0x01, 0x06, 0x00, 0x01, 0x00, 0x00, 0x00, 0x00,
        0x14,
    ],
    &[
        0x68, 0x0E, 0x00, 0x00, 0x02, 0x00, 0x64, 0x01, 0x47, 0x00, 0x01, 0x00, 0x00, 0x00, 0x00,
        0x14,
    ],
    &[
        0x68, 0x0E, 0x00, 0x00, 0x82, 0x00, 0x64, 0x01, 0x47, 0x00, 0x01, 0x00, 0x00, 0x00, 0x00,
        0x14,
    ],
    &[
        0x68, 0x0E, 0x00, 0x00, 0x00, 0x00, 0x64, 0x01, 0x06, 0x00, 0xFF, 0xFF, 0x00, 0x00, 0x00,
        0x14,
    ],
    &[
        0x68, 0x14, 0x00, 0x00, 0x00, 0x00, 0x67, 0x01, 0x06, 0x00, 0x01, 0x00, 0x00, 0x00, 0x00,
        0xD5, 0xDD, 0x22, 0x0C, 0x9D, 0x02, 0x18,
    ],
    &[
        0x68, 0x14, 0x00, 0x00, 0x02, 0x00, 0x67, 0x01, 0x6C, 0x00, 0x01, 0x00, 0x00, 0x00, 0x00,
        0xD5, 0xDD, 0x22, 0x0C, 0x9D, 0x02, 0x18,
    ],
    &[
        0x68, 0x15, 0x00, 0x00, 0x00, 0x00, 0x3A, 0x01, 0x06, 0x00, 0x01, 0x00, 0x0A, 0x00, 0x00,
        0x01, 0xD5, 0xDD, 0x22, 0x0C, 0x9D, 0x02, 0x18,
    ],
    &[
        0x68, 0x15, 0x00, 0x00, 0x02, 0x00, 0x3A, 0x01, 0x07, 0x00, 0x01, 0x00, 0x0A, 0x00, 0x00,
        0x01, 0xD5, 0xDD, 0x22, 0x0C, 0x9D, 0x02, 0x18,
    ],
    &[
        0x68, 0x15, 0x00, 0x00, 0x02, 0x00, 0x3A, 0x01, 0x47, 0x00, 0x01, 0x00, 0x0A, 0x00, 0x00,
        0x01, 0xD5, 0xDD, 0x22, 0x0C, 0x9D, 0x02, 0x18,
    ],
    &[
        0x68, 0x1A, 0x04, 0x00, 0x00, 0x00, 0x01, 0x04, 0x03, 0x00, 0x01, 0x00, 0x79, 0x00, 0x00,
        0x00, 0x7A, 0x00, 0x00, 0x00, 0x7B, 0x00, 0x00, 0x00, 0x7C, 0x00, 0x00, 0x00,
    ],
    &[0x68, 0x04, 0x01, 0x00, 0x00, 0x00],
    &[0x68, 0x04, 0x01, 0x00, 0x10, 0x00],
    &[0x68, 0x04, 0x01, 0x00, 0x12, 0x00],
    &[0x68, 0x04, 0x01, 0x00, 0x22, 0x00],
    &[0x68, 0x04, 0x01, 0x00, 0x80, 0x00],
    &[0x68, 0xFE],
    &[0x68, 0x04, 0x01, 0x01, 0x00, 0x00],
    &[0x68, 0x05, 0x07],
    &[0x68, 0x0C, 0x00],
];

/// The report of 60 single points: objects 1 to 60, each off.
fn long_report() -> [u8; 252] {
    let mut octets = [0; 252];
    octets[..12].copy_from_slice(&[
        0x68, 0xFA, 0x00, 0x00, 0x00, 0x00, 0x01, 0x3C, 0x03, 0x00, 0x01, 0x00,
    ]);
    for object in 1..=60u8 {
        octets[8 + 4 * usize::from(object)] = object;
    }
    octets
}

/// Whether octets that are cut in two here are received as `front` finds them, each looked at at
/// most once.
fn is_received_alike(octets: &[u8], cut: usize) -> bool {
    let (first, rest) = octets.split_at(cut);
    let mut assembler = Assembler::new();
    let at_first = feed_and_take(&mut assembler, first);
    let alike = if at_first.arrived == Received::More {
        feed_and_take(&mut assembler, rest) == fed_by(rest.len(), front(octets))
    } else {
        at_first == fed_by(cut, front(octets))
            && feed_and_take(&mut assembler, rest) == none_whole(rest.len(), Received::Deaf)
    };
    alike && at_first.taken == cut && assembler.looked() <= octets.len() as u64
}

/// Whether each octet, one after another, is received as `front` finds those that came.
fn is_received_octet_by_octet(octets: &[u8]) -> bool {
    let mut assembler = Assembler::new();
    for (i, octet) in octets.iter().enumerate() {
        let found = feed_and_take(&mut assembler, &[*octet]);
        let goes_on = found.arrived == Received::More;
        if found != fed_by(1, front(&octets[..i + 1])) {
            return false;
        }
        if !goes_on {
            break;
        }
    }
    true
}

/// Whether octets are received as `front` finds them, cut in two at each place.
fn is_received_alike_at_each_cut(octets: &[u8]) -> bool {
    for cut in 0..octets.len() {
        if !is_received_alike(octets, cut) {
            return false;
        }
    }
    true
}

/// Whether the report is received octet by octet with any octet at this place.
fn is_received_with_each_octet_at(place: usize) -> bool {
    for octet in 0u8..=255 {
        let mut octets = REPORT;
        octets[place] = octet;
        if !is_received_octet_by_octet(&octets) {
            return false;
        }
    }
    true
}

/// Whether each of the APDUs is received alike at each cut.
fn are_received_alike() -> bool {
    APDUS
        .iter()
        .all(|octets| is_received_alike_at_each_cut(octets))
}

#[test]
fn every_cut_is_received_alike(rt: HostRuntime) {
    assert!(rt; are_received_alike());
    for (_, control) in FUNCTIONS {
        assert!(rt; is_received_alike_at_each_cut(&[0x68, 0x04, control, 0x00, 0x00, 0x00]));
    }
    assert!(rt; is_received_alike_at_each_cut(&long_report()));
    for place in 0..21 {
        assert!(rt; is_received_with_each_octet_at(place));
    }
}

/// A call of an assembler.
#[derive(Drop)]
enum Step<'a> {
    /// A piece, and what is to be answered.
    Feed(&'a [u8], Fed),
    Clear,
    /// How many octets it has looked at by then.
    Looked(u64),
}

/// Whether each call, in their order, answers what it is to.
fn answers(assembler: &mut Assembler, steps: &[Step]) -> bool {
    steps.iter().all(|step| match step {
        Step::Feed(piece, expected) => feed_and_take(assembler, piece) == *expected,
        Step::Clear => {
            assembler.clear();
            true
        }
        Step::Looked(count) => assembler.looked() == *count,
    })
}

#[test]
fn what_is_left_and_what_is_dropped(rt: HostRuntime) {
    let piece = [0x00, 0x00, 0x00, 0x68, 0x00];
    let steps = [
        Step::Feed(&[0x68, 0x04, 0x43], none_whole(3, Received::More)),
        // Octets after an APDU are left.
        Step::Feed(&piece, one_whole(3, Apdu::U(Uf::TestAct))),
        Step::Feed(&piece[3..], none_whole(2, Received::Never(1, Why::Length))),
        // It is deaf until it is cleared.
        Step::Feed(&ACKNOWLEDGE, none_whole(6, Received::Deaf)),
        Step::Clear,
        Step::Feed(&ACKNOWLEDGE, one_whole(6, Apdu::S { nr: 1 })),
        Step::Looked(14),
        // Half an ASDU is forgotten.
        Step::Feed(&REPORT[..12], none_whole(12, Received::More)),
        Step::Clear,
        Step::Feed(&REPORT, fed_by(21, front(&REPORT))),
        Step::Feed(&[0x00], none_whole(1, Received::Never(0, Why::Start))),
        Step::Looked(48),
    ];
    let mut assembler = Assembler::new();
    assert!(rt; answers(&mut assembler, &steps));
    // A flood is taken, and not looked at.
    for _ in 0..10_000u32 {
        assert!(rt; assembler.feed(&[0x00]) == (1, Received::Deaf));
    }
    assert!(rt; assembler.looked() == 48);
    // An APDU that isn't taken is dropped.
    assembler.clear();
    assert!(rt;
        assembler.feed(&ACKNOWLEDGE) == (6, Received::Whole)
            && !assembler.is_empty()
            && assembler.feed(&REPORT) == (21, Received::Whole)
            && Front::Whole(assembler.take().unwrap(), 21) == front(&REPORT)
            && assembler.take().is_none()
            && assembler.is_empty()
    );
}
