//! Frames out of pieces: `Assembler`.

use super::*;

/// Whether octets that are cut in two here are received as `front` finds them, each looked at at
/// most once.
fn is_received_alike(size: LinkSize, octets: &[u8], cut: usize) -> bool {
    let (whole, decided) = match front(size, octets) {
        Front::Whole(frame, len) => (Received::Frame(frame), len),
        Front::More => (Received::More, octets.len()),
        Front::Never(place, why) => (Received::Never(place, why), place.saturating_add(1)),
    };
    let (first, rest) = octets.split_at(cut);
    let mut assembler = Assembler::new(size);
    let arrived = assembler.feed(first);
    let goes_on = if decided <= cut {
        arrived == (cut, whole) && assembler.feed(rest) == (rest.len(), Received::Deaf)
    } else {
        arrived == (cut, Received::More) && assembler.feed(rest) == (rest.len(), whole)
    };
    goes_on && assembler.looked() == decided as u64
}

/// Whether they are received alike whole, cut at each place, and with each octet spoilt.
fn is_received_alike_at_each_cut(size: LinkSize, octets: &[u8]) -> bool {
    for cut in 0..octets.len() {
        if !is_received_alike(size, octets, cut) {
            return false;
        }
        let mut spoilt = [0; 261];
        if octets.len() <= spoilt.len() {
            spoilt[..octets.len()].copy_from_slice(octets);
            spoilt[cut] ^= 0xFF;
            if !is_received_alike(size, &spoilt[..octets.len()], cut) {
                return false;
            }
        }
    }
    true
}

#[test]
fn each_cut_is_received_alike(rt: HostRuntime) {
    for octets in FRAMES {
        assert!(rt; is_received_alike_at_each_cut(LinkSize::One, octets));
        assert!(rt; is_received_alike_at_each_cut(LinkSize::Two, octets));
    }
    assert!(rt;
        is_received_alike_at_each_cut(LinkSize::One, &long_report())
            && is_received_alike_at_each_cut(LinkSize::Two, &STATUS_OF_258)
    );
}

/// A call of an assembler.
#[derive(Drop)]
enum Step<'a> {
    /// A piece, and what is to be answered.
    Feed(&'a [u8], (usize, Received)),
    Clear,
    /// How many octets it has looked at by then.
    Looked(u64),
}

/// Whether each call, in their order, answers what it is to.
fn answers(assembler: &mut Assembler, steps: &[Step]) -> bool {
    steps.iter().all(|step| match step {
        Step::Feed(piece, expected) => assembler.feed(piece) == *expected,
        Step::Clear => {
            assembler.clear();
            true
        }
        Step::Looked(count) => assembler.looked() == *count,
    })
}

#[test]
fn what_is_left_and_what_is_dropped(rt: HostRuntime) {
    let piece = [0xE5, 0xE5, 0x10, 0x7B, 0x01, 0x7C, 0x16, 0x00];
    let steps = [
        // Octets after a frame are left.
        Step::Feed(&piece, (1, Received::Frame(Frame::Single))),
        Step::Feed(&piece[1..], (1, Received::Frame(Frame::Single))),
        Step::Feed(
            &piece[2..],
            (5, Received::Frame(Frame::Fixed { c: 0x7B, a: 1 })),
        ),
        Step::Looked(7),
        // The next frame's places count from its own first octet.
        Step::Feed(&piece[7..], (1, Received::Never(0, Why::Start))),
        Step::Clear,
        // It is deaf until it is cleared.
        Step::Feed(
            &[0x68, 2, 0xE5, 0xE5],
            (4, Received::Never(2, Why::LengthsDiffer)),
        ),
        Step::Feed(&[0xE5], (1, Received::Deaf)),
        Step::Feed(&[], (0, Received::Deaf)),
        Step::Looked(11),
        Step::Clear,
        Step::Feed(&[0xE5], (1, Received::Frame(Frame::Single))),
        // What had come of a frame is forgotten.
        Step::Feed(&REPORT[..9], (9, Received::More)),
        Step::Clear,
        Step::Feed(
            &piece[2..],
            (5, Received::Frame(Frame::Fixed { c: 0x7B, a: 1 })),
        ),
        Step::Looked(26),
        Step::Feed(&[0], (1, Received::Never(0, Why::Start))),
    ];
    let mut assembler = Assembler::new(LinkSize::One);
    assert!(rt; answers(&mut assembler, &steps));
    // A long noise is taken, and not looked at.
    for _ in 0..10_000 {
        assert!(rt; answers(&mut assembler, &[Step::Feed(&[0], (1, Received::Deaf))]));
    }
    assert!(rt; answers(&mut assembler, &[Step::Looked(27)]));
}
