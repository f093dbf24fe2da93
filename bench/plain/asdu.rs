//! ASDUs (IEC 60870-5-101, 7), and the same objects in the sizes of 104.

/// The octets of an element, without its tag, and whether it has one; `None` for another type.
fn layout(kind: u8) -> Option<(usize, bool)> {
    let plain = match kind {
        30..=37 => 2 * (kind - 30) + 1,
        58..=62 => kind - 13,
        kind => kind,
    };
    let size = match plain {
        1 | 3 | 45..=47 | 70 | 100 => 1,
        5 => 2,
        9 | 11 | 48 | 49 => 3,
        7 | 13 | 15 => 5,
        _ => return None,
    };
    Some((size, plain != kind))
}

/// The octets of an element with its tag.
fn content_size(kind: u8) -> Option<usize> {
    let (size, is_tagged) = layout(kind)?;
    Some(if is_tagged { size + 7 } else { size })
}

pub fn is_monitor(kind: u8) -> bool {
    layout(kind).is_some() && !is_answer(kind) && !(58..=62).contains(&kind)
}

/// Whether a station answers a command with it.
pub fn is_answer(kind: u8) -> bool {
    matches!(kind, 45..=49 | 100)
}

/// The sizes of an ASDU's fields on the line.
#[derive(Clone, Copy)]
pub struct Sizes {
    pub cause: usize,
    pub ca: usize,
    pub ioa: usize,
}

/// An ASDU of the line.
#[derive(Clone, Copy)]
pub struct Asdu<'a> {
    sizes: Sizes,
    pub kind: u8,
    pub cause: u8,
    originator: u8,
    pub ca: u16,
    is_sequence: bool,
    count: usize,
    content: usize,
    objects: &'a [u8],
}

fn number(octets: &[u8]) -> u32 {
    octets
        .iter()
        .rev()
        .fold(0, |number, octet| number << 8 | u32::from(*octet))
}

pub fn read(sizes: Sizes, octets: &[u8]) -> Option<Asdu<'_>> {
    let head = 2 + sizes.cause + sizes.ca;
    if octets.len() < head + sizes.ioa {
        return None;
    }
    let kind = octets[0];
    let content = content_size(kind)?;
    let is_sequence = octets[1] & 0x80 != 0;
    let count = usize::from(octets[1] & 0x7F);
    let objects = &octets[head..];
    let wanted = if is_sequence {
        sizes.ioa + count * content
    } else {
        count * (sizes.ioa + content)
    };
    if count == 0 || objects.len() != wanted {
        return None;
    }
    if is_sequence && number(&objects[..sizes.ioa]) as usize + count - 1 >= 1 << (8 * sizes.ioa) {
        return None;
    }
    Some(Asdu {
        sizes,
        kind,
        cause: octets[2],
        originator: if sizes.cause == 2 { octets[3] } else { 0 },
        ca: number(&octets[2 + sizes.cause..head]) as u16,
        is_sequence,
        count,
        content,
        objects,
    })
}

impl<'a> Asdu<'a> {
    /// Each object's address and content.
    pub fn objects(&self) -> impl Iterator<Item = (u32, &'a [u8])> + use<'a> {
        let Asdu {
            sizes,
            is_sequence,
            count,
            content,
            objects,
            ..
        } = *self;
        (0..count).map(move |n| {
            if is_sequence {
                let start = sizes.ioa + n * content;
                (
                    number(&objects[..sizes.ioa]) + n as u32,
                    &objects[start..start + content],
                )
            } else {
                let object = &objects[n * (sizes.ioa + content)..][..sizes.ioa + content];
                (number(&object[..sizes.ioa]), &object[sizes.ioa..])
            }
        })
    }

    /// Its pieces in the sizes of 104, one after another, each written in place of what `piece` held
    /// and handed on, until one isn't taken. With a tag (of 7 octets) it is the type with that tag.
    pub fn translate(
        &self,
        tag: Option<&[u8]>,
        piece: &mut Vec<u8>,
        mut hand: impl FnMut(&[u8]) -> bool,
    ) -> bool {
        let kind = if tag.is_some() {
            self.kind + 13
        } else {
            self.kind
        };
        let most = if self.is_sequence {
            127.min(240 / self.content)
        } else {
            243 / (3 + self.content)
        };
        let mut left = self.count;
        let mut first = 0;
        while left > 0 {
            let count = left.min(most);
            left -= count;
            piece.clear();
            let sequence = if self.is_sequence { 0x80 } else { 0 };
            let [low, high] = self.ca.to_le_bytes();
            let head = [kind, sequence | count as u8, self.cause, self.originator, low, high];
            piece.extend_from_slice(&head);
            self.spread(first, count, piece);
            first += count;
            piece.extend_from_slice(tag.unwrap_or_default());
            if !hand(piece) {
                return false;
            }
        }
        true
    }

    /// Puts so many objects, from this one on, behind a piece.
    fn spread(&self, first: usize, count: usize, piece: &mut Vec<u8>) {
        let Asdu { sizes, content, objects, .. } = *self;
        if self.is_sequence {
            let address = number(&objects[..sizes.ioa]) + first as u32;
            piece.extend_from_slice(&address.to_le_bytes()[..3]);
            piece.extend_from_slice(&objects[sizes.ioa + first * content..][..count * content]);
            return;
        }
        let width = sizes.ioa + content;
        let from = &objects[first * width..][..count * width];
        let start = piece.len();
        piece.resize(start + count * (3 + content), 0);
        let into = &mut piece[start..];
        match (sizes.ioa, content) {
            (1, 1) => each::<1, 1>(from, into),
            (2, 1) => each::<2, 1>(from, into),
            (3, _) => into.copy_from_slice(from),
            (2, 2) => each::<2, 2>(from, into),
            (2, 3) => each::<2, 3>(from, into),
            (2, 5) => each::<2, 5>(from, into),
            (2, 8) => each::<2, 8>(from, into),
            (2, 9) => each::<2, 9>(from, into),
            (2, 10) => each::<2, 10>(from, into),
            (2, 12) => each::<2, 12>(from, into),
            (ioa, content) => {
                for (to, from) in into.chunks_exact_mut(3 + content).zip(from.chunks_exact(width)) {
                    to[..ioa].copy_from_slice(&from[..ioa]);
                    to[3..].copy_from_slice(&from[ioa..]);
                }
            }
        }
    }
}

/// Each object with an address of three octets, where it had one of `IOA`; `CONTENT` octets follow.
fn each<const IOA: usize, const CONTENT: usize>(from: &[u8], into: &mut [u8]) {
    for (to, from) in into.chunks_exact_mut(3 + CONTENT).zip(from.chunks_exact(IOA + CONTENT)) {
        to[..IOA].copy_from_slice(&from[..IOA]);
        to[3..].copy_from_slice(&from[IOA..]);
    }
}
