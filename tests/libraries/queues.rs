use asdu::{Piece, Pieces};
use events::{Events, NoMemory};
use std::alloc::Global;
use std::test::Fail;

/// An ASDU of nine octets of this value, which distinguishes it from the others.
fn piece(octet: u8) -> Piece {
    let mut piece = Piece::new();
    piece.try_extend_from_slice(&[octet; 9]).unwrap();
    piece
}

fn one(octet: u8) -> Pieces {
    let mut pieces = Pieces::new();
    pieces.push(piece(octet));
    pieces
}

fn three(first: u8, second: u8, third: u8) -> Pieces {
    let mut pieces = Pieces::new();
    pieces.push(piece(first));
    pieces.push(piece(second));
    pieces.push(piece(third));
    pieces
}

/// Whether the kept pieces are these, oldest first.
fn keeps(events: &Events, octets: &[u8]) -> bool {
    let mut count: usize = 0;
    for kept in events.kept() {
        if octets
            .get(count)
            .is_none_or(|octet| kept != [*octet; 9].as_slice())
        {
            return false;
        }
        count = count.wrapping_add(1);
    }
    count == octets.len()
}

/// Whether this piece is the oldest unsent one.
fn sends(events: &Events, octet: u8) -> bool {
    let Some(unsent) = events.unsent() else {
        return false;
    };
    unsent == [octet; 9].as_slice()
}

/// Whether seven places keep what they are to: four pieces come, two are sent, and the oldest
/// leaves; a new connection begins, and three more come.
fn keeps_two_marks(events: &mut Events) -> bool {
    if events.free() != 7 || events.unsent().is_some() {
        return false;
    }
    events.push(three(1, 2, 3));
    events.push(one(4));
    if events.free() != 3 || events.is_full() || !sends(events, 1) {
        return false;
    }
    events.mark_sent();
    if !sends(events, 2) {
        return false;
    }
    events.mark_sent();
    let are_sent = keeps(events, &[1, 2, 3, 4]) && sends(events, 3);
    // The oldest leaves, and the mark stays behind the second.
    events.acknowledge(1);
    let has_left = keeps(events, &[2, 3, 4]) && sends(events, 3);
    // A new connection begins at the oldest unacknowledged.
    events.rewind();
    let is_rewound = keeps(events, &[2, 3, 4]) && sends(events, 2);
    events.push(three(5, 6, 7));
    let is_full = events.free() == 1 && events.is_full();
    are_sent && has_left && is_rewound && is_full && keeps(events, &[2, 3, 4, 5, 6, 7])
}

/// Whether the oldest unsent piece is this one, is sent and leaves.
fn leaves(events: &mut Events, octet: u8) -> bool {
    if !sends(events, octet) {
        return false;
    }
    events.mark_sent();
    events.acknowledge(1);
    true
}

/// Whether what is kept is the same once more has left than that: behind the first piece three
/// leave, and three stay.
fn keeps_what_moves(events: &mut Events) -> bool {
    leaves(events, 2)
        && leaves(events, 3)
        && leaves(events, 4)
        && keeps(events, &[5, 6, 7])
        && sends(events, 5)
}

#[test]
fn a_list_with_two_marks(rt: HostRuntime) -> Result<(), Fail> {
    let mut events = Events::new(rt.alloc(), 7)?;
    let are_right = keeps_two_marks(&mut events);
    assert!(rt; are_right);
    assert_eq!(rt; events.free(), 1);
    assert!(rt; keeps_what_moves(&mut events));
    assert_eq!(rt; events.free(), 4);
    Ok(())
}

/// Whether a report comes to a queue of three places, is sent and leaves.
fn passes(events: &mut Events, octet: u8) -> bool {
    if events.is_full() {
        return false;
    }
    events.push(one(octet));
    let is_full = events.is_full();
    if !sends(events, octet) {
        return false;
    }
    events.mark_sent();
    let is_sent = keeps(events, &[octet]) && events.unsent().is_none();
    events.acknowledge(1);
    is_full && is_sent && events.free() == 3
}

#[test]
fn a_small_queue_takes_a_thousand_reports(rt: HostRuntime) -> Result<(), Fail> {
    let mut events = Events::new(rt.alloc(), 3)?;
    let mut count: u32 = 0;
    for round in 0..1000u32 {
        if passes(&mut events, (round % 251) as u8) {
            count = count.wrapping_add(1);
        }
    }
    assert!(rt; count == 1000, "{count}");
    Ok(())
}
