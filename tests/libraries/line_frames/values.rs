//! Frames as values: `encode`, `front`, `front_ref`.

use super::*;

/// Whether the octets are a frame with so many octets of data, `encode` writes it so, and an octet
/// after them changes nothing.
fn is_written_back(size: LinkSize, octets: &[u8], data: Option<usize>) -> bool {
    let FrontRef::Whole(frame, len) = front_ref(size, octets) else {
        return false;
    };
    let body_len = match frame {
        FrameRef::Data { body, .. } => Some(body.len()),
        _ => None,
    };
    let frame = frame.to_frame();
    len == octets.len()
        && body_len == data
        && encode(size, &frame).as_slice() == octets
        && front(size, octets) == Front::Whole(frame, len)
}

/// Whether the octets are refused at this place for this, and those before it are not.
fn is_refused(size: LinkSize, octets: &[u8], place: usize, why: Why) -> bool {
    front(size, octets) == Front::Never(place, why)
        && front_ref(size, octets) == FrontRef::Never(place, why)
        && octets
            .get(..place)
            .is_some_and(|before| front(size, before) == Front::More)
}

/// Octets that begin no frame in these sizes, the place that decides it, and why.
const REFUSED: [(LinkSize, &[u8], usize, Why); 16] = [
    (LinkSize::One, &[0x00], 0, Why::Start),
    (LinkSize::One, &[0x68, 0x01], 1, Why::LengthSmall),
    (LinkSize::One, &[0x68, 0x02, 0x03], 2, Why::LengthsDiffer),
    (
        LinkSize::One,
        &[0x68, 0x02, 0x02, 0x16],
        3,
        Why::SecondStart,
    ),
    (LinkSize::One, &[0x10, 0x49, 0x01, 0x4B], 3, Why::Sum),
    (LinkSize::One, &[0x10, 0x49, 0x01, 0x4A, 0x17], 4, Why::End),
    (
        LinkSize::One,
        &[0x68, 0x03, 0x03, 0x68, 0x08, 0x01, 0xFF, 0x09],
        7,
        Why::Sum,
    ),
    (
        LinkSize::One,
        &[0x68, 0x03, 0x03, 0x68, 0x08, 0x01, 0xFF, 0x08, 0x68],
        8,
        Why::End,
    ),
    // the lowest place counts
    (
        LinkSize::One,
        &[0x68, 0x01, 0x02, 0x00],
        1,
        Why::LengthSmall,
    ),
    (LinkSize::Two, &[0x16], 0, Why::Start),
    (LinkSize::Two, &[0x68, 0x02], 1, Why::LengthSmall),
    (LinkSize::Two, &[0x68, 0x03, 0x02], 2, Why::LengthsDiffer),
    (
        LinkSize::Two,
        &[0x68, 0x03, 0x03, 0x10],
        3,
        Why::SecondStart,
    ),
    (LinkSize::Two, &[0x10, 0x49, 0x02, 0x01, 0x4B], 4, Why::Sum),
    (
        LinkSize::Two,
        &[0x10, 0x49, 0x02, 0x01, 0x4C, 0x00],
        5,
        Why::End,
    ),
    (
        LinkSize::Two,
        &[0x68, 0x03, 0x03, 0x68, 0x08, 0x02, 0x01, 0x0C],
        7,
        Why::Sum,
    ),
];

// Each table is named by a function of its own: what a function costs the proof grows faster than
// the constants that it names.

/// Whether the frames are written back.
fn are_written_back() -> bool {
    for octets in FRAMES {
        let data = match octets {
            [0x68, len, ..] => Some(usize::from(len.saturating_sub(2))),
            _ => None,
        };
        if !is_written_back(LinkSize::One, octets, data) {
            return false;
        }
    }
    true
}

/// Whether the longest frames are written back, which have a length of 255.
fn are_longest_written_back() -> bool {
    let mut longest = [0; 261];
    longest[..6].copy_from_slice(&[0x68, 0xFF, 0xFF, 0x68, 0x08, 0x01]);
    longest[259] = 0x09;
    longest[260] = 0x16;
    is_written_back(LinkSize::One, &long_report(), Some(252))
        && is_written_back(LinkSize::One, &longest, Some(253))
        && is_written_back(LinkSize::Two, &longest, Some(252))
        && is_written_back(LinkSize::Two, &STATUS_OF_258, None)
}

/// Whether all of these are refused so.
fn are_refused() -> bool {
    for (size, octets, place, why) in &REFUSED {
        if !is_refused(*size, octets, *place, *why) {
            return false;
        }
    }
    true
}

#[test]
fn frames_of_a_line_and_refusals(rt: HostRuntime) {
    assert!(rt; are_written_back());
    assert!(rt; are_longest_written_back());
    assert!(rt; are_refused());
    let poll = Front::Whole(Frame::Fixed { c: 0x7B, a: 1 }, 5);
    assert!(rt; front(LinkSize::One, &[0x10, 0x7B, 0x01, 0x7C, 0x16, 0xE5]) == poll);
    for octet in 0..=255u8 {
        let expected = match octet {
            0xE5 => Front::Whole(Frame::Single, 1),
            0x10 | 0x68 => Front::More,
            _ => Front::Never(0, Why::Start),
        };
        assert!(rt; front(LinkSize::One, &[octet]) == expected);
    }
}
