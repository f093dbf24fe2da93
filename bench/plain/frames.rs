//! Frames of the line (IEC 60870-5-1, 6.2.4.2: FT1.2).

/// A frame; its data are lent.
#[derive(Clone, Copy)]
pub enum Frame<'a> {
    Single,
    Fixed {
        control: u8,
        address: u16,
    },
    Data {
        control: u8,
        address: u16,
        body: &'a [u8],
    },
}

/// What stands at the front of octets.
pub enum Front<'a> {
    Whole(Frame<'a>),
    More,
    Never,
}

fn address_of(octets: &[u8]) -> u16 {
    match octets {
        [low] => u16::from(*low),
        [low, high] => u16::from_le_bytes([*low, *high]),
        _ => unreachable!("an address has one or two octets"),
    }
}

fn sum(octets: &[u8]) -> u8 {
    octets.iter().fold(0, |sum, octet| sum.wrapping_add(*octet))
}

/// The control octet, the address and the data, from `start` on, and their sum and end.
fn tail<'a>(size: usize, octets: &'a [u8], start: usize, len: usize) -> Front<'a> {
    let end = start + len;
    if octets.len() > end && octets[end] != sum(&octets[start..end]) {
        return Front::Never;
    }
    if octets.len() < end + 2 {
        return Front::More;
    }
    if octets[end + 1] != 0x16 {
        return Front::Never;
    }
    let control = octets[start];
    let address = address_of(&octets[start + 1..start + 1 + size]);
    let frame = if start == 1 {
        Frame::Fixed { control, address }
    } else {
        Frame::Data {
            control,
            address,
            body: &octets[start + 1 + size..end],
        }
    };
    Front::Whole(frame)
}

/// Reads the front of octets, where an address has `size` octets.
pub fn front(size: usize, octets: &[u8]) -> Front<'_> {
    match *octets {
        [] => Front::More,
        [0xE5, ..] => Front::Whole(Frame::Single),
        [0x10, ..] => tail(size, octets, 1, 1 + size),
        [0x68] => Front::More,
        [0x68, len, ..] if usize::from(len) < 1 + size => Front::Never,
        [0x68, len, again, ..] if len != again => Front::Never,
        [0x68, _, _, start, ..] if start != 0x68 => Front::Never,
        [0x68, len, _, _, ..] => tail(size, octets, 4, usize::from(len)),
        [0x68, ..] => Front::More,
        _ => Front::Never,
    }
}

fn push_address(out: &mut Vec<u8>, size: usize, address: u16) {
    out.extend_from_slice(&address.to_le_bytes()[..size]);
}

/// Writes a frame of fixed length in place of what `out` held.
pub fn write_fixed(out: &mut Vec<u8>, size: usize, control: u8, address: u16) {
    out.clear();
    out.extend_from_slice(&[0x10, control]);
    push_address(out, size, address);
    let sum = sum(&out[1..]);
    out.extend_from_slice(&[sum, 0x16]);
}

/// Writes a frame of variable length in place of what `out` held.
pub fn write_data(out: &mut Vec<u8>, size: usize, control: u8, address: u16, body: &[u8]) {
    let len = (1 + size + body.len()) as u8;
    out.clear();
    out.extend_from_slice(&[0x68, len, len, 0x68, control]);
    push_address(out, size, address);
    out.extend_from_slice(body);
    let sum = sum(&out[4..]);
    out.extend_from_slice(&[sum, 0x16]);
}
