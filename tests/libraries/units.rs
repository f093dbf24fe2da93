//! Worked ASDUs: read, cut into pieces, and written.
use arrayvec::ArrayVec;
use asdu::{
    Asdu, CaSize, CauseSize, Head, IoaSize, Refused, Sizes, can_write, head, is_plain_command,
    is_tagged_command, read, retag, translate, untag, write,
};
use elements::{Cp56, TypeId, Verdict, judge, kind};

const SMALL: Sizes = Sizes {
    cause: CauseSize::One,
    ca: CaSize::One,
    ioa: IoaSize::One,
};

const MIDDLE: Sizes = Sizes {
    cause: CauseSize::One,
    ca: CaSize::Two,
    ioa: IoaSize::Two,
};

/// Thursday 2024-02-29 12:34:56.789.
const THURSDAY: [u8; 7] = [0xD5, 0xDD, 0x22, 0x0C, 0x9D, 0x02, 0x18];

type Octets = ArrayVec<u8, 253>;

/// Appends octets; false where they don't fit.
fn extend(out: &mut Octets, octets: &[u8]) -> bool {
    out.try_extend_from_slice(octets).is_ok()
}

/// The octets of an element, all the same, and those of a tag.
fn content(kind: TypeId, octet: u8) -> Octets {
    let mut out = Octets::new();
    let tag: &[u8] = if kind.tagged() { &THURSDAY } else { &[] };
    let _ = (0..kind.size()).all(|_| out.try_push(octet).is_ok()) && extend(&mut out, tag);
    out
}

/// All octets, one after another.
fn joined(parts: &[&[u8]]) -> Octets {
    let mut out = Octets::new();
    let _ = parts.iter().all(|part| extend(&mut out, part));
    out
}

/// Two single points with SQ 0, sent as a test, of cause 3.
const POINTS: [u8; 8] = [0x01, 0x02, 0x83, 0x01, 0x64, 0x01, 0x65, 0xF0];

/// Two normalised values with SQ 1, of originator 7.
const VALUES: [u8; 15] = [
    0x09, 0x82, 0x03, 0x07, 0x01, 0x00, 0x0A, 0x00, 0x00, 0x00, 0x80, 0x00, 0xFF, 0xFF, 0x80,
];

/// Whether its untagged objects have these addresses and elements, in this order, and whether there
/// are no others.
fn has_objects(asdu: &Asdu, wanted: &[(u32, &[u8])]) -> bool {
    let mut objects = asdu.objects();
    for (address, element) in wanted {
        let Some(object) = objects.next() else {
            return false;
        };
        if object.address != *address || object.element != *element || object.tag.is_some() {
            return false;
        }
    }
    objects.next().is_none() && objects.next().is_none()
}

/// Whether these are the values that its objects show.
fn shows(asdu: &Asdu, wanted: &[i64]) -> bool {
    let mut objects = asdu.objects();
    wanted.iter().all(|value| match objects.next() {
        Some(object) => object.kind.value(object.element) == *value,
        None => false,
    })
}

/// Whether it has so many objects and this header, also field by field.
fn has_head(asdu: &Asdu, number: usize, head: &Head) -> bool {
    asdu.number() == number
        && asdu.cause() == head.cause
        && asdu.originator() == head.originator
        && asdu.ca() == head.ca
        && asdu.head() == *head
}

/// Octets that begin with a header and an address in these sizes, or are too short for them. Heads
/// are not judged.
const HEADS: [(Sizes, &[u8], Option<Head>); 6] = [
    (
        MIDDLE,
        &[0xFF, 0x00, 0xC6, 0x34, 0x12, 0xCD, 0xAB],
        Some(Head {
            kind: 0xFF,
            vsq: 0,
            cause: 0xC6,
            originator: 0,
            ca: 0x1234,
            ioa: 0xABCD,
        }),
    ),
    (MIDDLE, &[0xFF, 0x00, 0xC6, 0x34, 0x12, 0xCD], None),
    (
        Sizes::TCP,
        &[0xFF, 0x00, 0xC6, 0x34, 0x12, 0xCD, 0xAB],
        None,
    ),
    (
        Sizes::TCP,
        &[1, 2, 3, 4, 5, 6, 7, 8, 9],
        Some(Head {
            kind: 1,
            vsq: 2,
            cause: 3,
            originator: 4,
            ca: 0x0605,
            ioa: 0x09_0807,
        }),
    ),
    (Sizes::TCP, &[1, 2, 3, 4, 5, 6, 7, 8], None),
    (SMALL, &[1, 2, 3, 4], None),
];

/// ASDUs in these sizes: the type, whether SQ is 1, the header, the objects, and the values that
/// they show.
const READ: [(Sizes, &[u8], TypeId, bool, Head, &[(u32, &[u8])], &[i64]); 2] = [
    (
        SMALL,
        &POINTS,
        TypeId::MSpNa1,
        false,
        Head {
            kind: 1,
            vsq: 2,
            cause: 0x83,
            originator: 0,
            ca: 1,
            ioa: 100,
        },
        &[(100, &[0x01]), (101, &[0xF0])],
        &[1, 0],
    ),
    (
        Sizes::TCP,
        &VALUES,
        TypeId::MMeNa1,
        true,
        Head {
            kind: 9,
            vsq: 0x82,
            cause: 3,
            originator: 7,
            ca: 1,
            ioa: 10,
        },
        &[(10, &[0x00, 0x80, 0x00]), (11, &[0xFF, 0xFF, 0x80])],
        &[-32_768, -1],
    ),
];

/// Octets that are no ASDU in these sizes, and the number of the reason.
const REFUSED: [(Sizes, &[u8], u8); 11] = [
    // Too short for a header and an address, whatever the type; in other sizes too.
    (SMALL, &[], 1),
    (SMALL, &[0x02, 0x00, 0x03, 0x01], 1),
    (Sizes::TCP, &[0x01, 0x01, 3, 0, 1, 0, 1, 0], 1),
    // A type that isn't known, also with number 0.
    (SMALL, &[0x02, 0x00, 0x03, 0x01, 0x64], 2),
    // Number 0, with SQ 0 and 1, also where the length is wrong.
    (SMALL, &[0x01, 0x00, 0x03, 0x01, 0x64], 3),
    (SMALL, &[0x01, 0x80, 0x03, 0x01, 0x64, 0x01], 3),
    // An octet too few or too many, also where the last address is past the size.
    (SMALL, &[0x01, 0x01, 0x03, 0x01, 0x64], 4),
    (SMALL, &[0x01, 0x01, 0x03, 0x01, 0x64, 0x01, 0x00], 4),
    (SMALL, &[0x01, 0x82, 0x03, 0x01, 0xFF, 0x01], 4),
    // The last address past the size with SQ 1.
    (SMALL, &[0x01, 0x82, 0x03, 0x01, 0xFF, 0x01, 0x00], 5),
    (
        Sizes::TCP,
        &[0x01, 0x82, 3, 0, 1, 0, 0xFF, 0xFF, 0xFF, 1, 1],
        5,
    ),
];

#[test]
fn reads_asdus(rt: HostRuntime) {
    for (sizes, octets, kind, is_sequence, wanted, objects, values) in READ {
        let Ok(asdu) = read(sizes, octets) else {
            assert!(rt; false);
            return;
        };
        assert!(rt; (asdu.sizes, asdu.kind) == (sizes, kind) && asdu.octets == octets);
        assert!(rt; asdu.is_sequence() == is_sequence && asdu.is_passed_on());
        assert!(rt; has_head(&asdu, 2, &wanted));
        assert!(rt; has_objects(&asdu, objects) && shows(&asdu, values));
    }
    for (sizes, octets, wanted) in HEADS {
        assert!(rt; head(sizes, octets) == wanted);
    }
    for (sizes, octets, why) in REFUSED {
        assert!(rt; read(sizes, octets) == Err(Refused(why)), "{why}");
    }
    // The greatest address that isn't.
    assert!(rt; read(SMALL, &[0x01, 0x82, 0x03, 0x01, 0xFE, 0x01, 0x00]).is_ok());
    // A set point as a short float and a bitstring, each with a time tag, are not carried.
    for octet in 63..=64u8 {
        let tagged = joined(&[&[octet, 0x01, 6, 1, 10, 0x81], &THURSDAY]);
        assert!(rt; read(SMALL, &tagged) == Err(Refused(2)));
    }
}

/// Whether the octets are cut into these pieces.
fn is_cut_into(octets: &[u8], wanted: &[&[u8]]) -> bool {
    let Ok(asdu) = read(SMALL, octets) else {
        return false;
    };
    if asdu.octets.len() > 253 {
        return false;
    }
    let pieces = translate(&asdu);
    for (place, piece) in pieces.as_slice().iter().enumerate() {
        if wanted
            .get(place)
            .is_none_or(|octets| piece.as_slice() != *octets)
        {
            return false;
        }
    }
    pieces.len() == wanted.len()
}

/// Whether it is written in these sizes, with these octets.
fn is_written(asdu: &Asdu, sizes: Sizes, wanted: &[u8]) -> bool {
    can_write(sizes, asdu) && write(sizes, asdu).as_slice() == wanted
}

/// Whether it has two objects at 16 and 17, the first of F1 and the second of 8E, as its type has.
fn has_both(asdu: &Asdu) -> bool {
    let mut address = 16;
    let mut octet = 0xF1;
    for object in asdu.objects() {
        let tag = object.tag.unwrap_or(&[]);
        let whole = joined(&[object.element, tag]);
        if object.address != address || whole != content(asdu.kind, octet) {
            return false;
        }
        address = 17;
        octet = 0x8E;
    }
    asdu.number() == 2 && address == 17
}

/// Whether the type is carried: two objects as a line of one-octet sizes and as a connection has
/// them.
fn is_carried(kind: TypeId, small: &[u8], wide: &[u8]) -> bool {
    let (Ok(line), Ok(connection)) = (read(SMALL, small), read(Sizes::TCP, wide)) else {
        return false;
    };
    line.kind == kind
        && line.is_passed_on() == kind.monitor()
        && has_both(&line)
        && has_both(&connection)
        && is_cut_into(small, &[wide])
        && is_written(&connection, SMALL, small)
}

#[test]
fn carries_every_type(rt: HostRuntime) {
    let mut types = 0u32;
    for octet in 0..=255u8 {
        if let Some(kind) = kind(octet) {
            types = types.wrapping_add(1);
            let (one, other) = (content(kind, 0xF1), content(kind, 0x8E));
            let small = joined(&[&[octet, 0x02, 0x43, 9, 16], &one, &[17], &other]);
            let wide = joined(&[
                &[octet, 0x02, 0x43, 0, 9, 0, 16, 0, 0],
                &one,
                &[17, 0, 0],
                &other,
            ]);
            let small_run = joined(&[&[octet, 0x82, 0x43, 9, 16], &one, &other]);
            let wide_run = joined(&[&[octet, 0x82, 0x43, 0, 9, 0, 16, 0, 0], &one, &other]);
            assert!(rt; is_carried(kind, &small, &wide) && is_carried(kind, &small_run, &wide_run));
        }
    }
    // Eight of reports without and with a tag, the end of initialisation, six of commands, and five
    // of them with a tag.
    assert!(rt; types == 28);
}

/// So many totals behind a header.
fn totals(head: &[u8], number: u8) -> Octets {
    let mut out = joined(&[head]);
    let _ = (0..number).all(|_| extend(&mut out, &[0xFF, 0xFF, 0xFF, 0xFF, 0x80]));
    out
}

/// So many single points behind a header, from this address on; the other octets of addresses.
fn points(head: &[u8], first: u8, number: u8, high: &[u8]) -> Octets {
    let mut out = joined(&[head]);
    for place in 0..number {
        let _ = extend(&mut out, &[place.wrapping_add(first)])
            && extend(&mut out, high)
            && extend(&mut out, &[0]);
    }
    out
}

/// Types and causes, and whether such an ASDU is a report that is passed on.
const CAUSES: [(u8, u8, bool); 7] = [
    (1, 0x03, true),
    (1, 0x2C, true),
    (1, 0x6C, false),
    (1, 0xEC, false),
    (1, 0x6D, true),
    (45, 0x07, false),
    (100, 0x6C, false),
];

fn are_totals_cut() -> bool {
    let pieces = [
        totals(&[15, 0xB0, 3, 0, 1, 0, 10, 0, 0], 48),
        totals(&[15, 0x81, 3, 0, 1, 0, 58, 0, 0], 1),
    ];
    let long = totals(&[15, 0xB1, 3, 1, 10], 49);
    is_cut_into(&long, &[&pieces[0], &pieces[1]])
}

fn are_points_cut() -> bool {
    let pieces = [
        points(&[1, 60, 3, 0, 1, 0], 1, 60, &[0, 0]),
        points(&[1, 60, 3, 0, 1, 0], 61, 60, &[0, 0]),
        points(&[1, 4, 3, 0, 1, 0], 121, 4, &[0, 0]),
    ];
    let long = points(&[1, 124, 3, 1], 1, 124, &[]);
    is_cut_into(&long, &[&pieces[0], &pieces[1], &pieces[2]])
}

/// Whether an ASDU of this type and cause is translated, and is a report that is passed on or not.
fn is_translated(kind: u8, cause: u8, is_passed_on: bool) -> bool {
    let octets = [kind, 0x01, cause, 1, 0, 1];
    let Ok(asdu) = read(SMALL, &octets) else {
        return false;
    };
    asdu.is_passed_on() == is_passed_on
        && asdu.cause() == cause
        && is_cut_into(&octets, &[&[kind, 1, cause, 0, 1, 0, 0, 0, 0, 1]])
}

#[test]
fn cuts_reports(rt: HostRuntime) {
    assert!(rt; are_totals_cut());
    assert!(rt; are_points_cut());
    // Every cause is translated, and a wrong tag is carried as it came: there is no 2023-02-29.
    for (kind, cause, wanted) in CAUSES {
        assert!(rt; is_translated(kind, cause, wanted));
    }
    let tag = [0xD5, 0xDD, 0x22, 0x0C, 0x9D, 0x02, 0x17];
    let octets = joined(&[&[30, 0x01, 3, 1, 100, 0x81], &tag]);
    let piece = joined(&[&[30, 0x01, 3, 0, 1, 0, 100, 0, 0, 0x81], &tag]);
    assert!(rt; is_cut_into(&octets, &[&piece]) && judge(&Cp56(tag)) == Verdict::NoSuchDay);
}

#[test]
fn writes_what_fits(rt: HostRuntime) {
    // The originator 7 goes where the cause has one octet; in its own sizes it has its own octets.
    let octets = [45, 0x01, 0x46, 7, 0x34, 0x12, 0xFF, 0x00, 0x00, 0x81];
    let far = [45, 0x01, 6, 0, 1, 0, 0x00, 0x00, 0x01, 1];
    let long = points(&[1, 124, 3, 1], 1, 124, &[]);
    let (Ok(command), Ok(far), Ok(long)) = (
        read(Sizes::TCP, &octets),
        read(Sizes::TCP, &far),
        read(SMALL, &long),
    ) else {
        assert!(rt; false);
        return;
    };
    assert!(rt;
        is_written(
            &command,
            MIDDLE,
            &[45, 0x01, 0x46, 0x34, 0x12, 0xFF, 0x00, 0x81]
        ) && is_written(&command, Sizes::TCP, &octets)
    );
    // A common address past one octet, an object address past two, and too many octets.
    assert!(rt;
        !can_write(SMALL, &command)
            && !can_write(MIDDLE, &far)
            && can_write(SMALL, &long)
            && !can_write(MIDDLE, &long)
    );
}

/// Whether the second is the first with the tag, both ways, in the sizes of a connection.
fn is_tagged_pair(plain: &[u8], tagged: &[u8]) -> bool {
    let (Ok(without), Ok(with)) = (read(Sizes::TCP, plain), read(Sizes::TCP, tagged)) else {
        return false;
    };
    if !is_tagged_command(with.kind) || !is_plain_command(without.kind) {
        return false;
    }
    if with.number() != 1 || without.number() != 1 {
        return false;
    }
    untag(&with).as_slice() == plain && retag(&without, &Cp56(THURSDAY)).as_slice() == tagged
}

/// Commands without a tag, and with that of Thursday 2024-02-29 12:34:56.789, in the sizes of a
/// connection.
const COMMANDS: [(&[u8], &[u8]); 5] = [
    (
        &[45, 1, 6, 0, 1, 0, 0x0A, 0, 0, 0x81],
        &[
            58, 1, 6, 0, 1, 0, 0x0A, 0, 0, 0x81, 0xD5, 0xDD, 0x22, 0x0C, 0x9D, 0x02, 0x18,
        ],
    ),
    (
        &[46, 1, 6, 0, 1, 0, 0x0A, 0, 0, 0x02],
        &[
            59, 1, 6, 0, 1, 0, 0x0A, 0, 0, 0x02, 0xD5, 0xDD, 0x22, 0x0C, 0x9D, 0x02, 0x18,
        ],
    ),
    (
        &[47, 1, 6, 0, 1, 0, 0x0A, 0, 0, 0x01],
        &[
            60, 1, 6, 0, 1, 0, 0x0A, 0, 0, 0x01, 0xD5, 0xDD, 0x22, 0x0C, 0x9D, 0x02, 0x18,
        ],
    ),
    (
        &[48, 1, 6, 0, 1, 0, 0x0A, 0, 0, 0x00, 0xC0, 0x80],
        &[
            61, 1, 6, 0, 1, 0, 0x0A, 0, 0, 0x00, 0xC0, 0x80, 0xD5, 0xDD, 0x22, 0x0C, 0x9D, 0x02,
            0x18,
        ],
    ),
    (
        &[49, 1, 6, 0, 1, 0, 0x0A, 0, 0, 0x64, 0x00, 0x05],
        &[
            62, 1, 6, 0, 1, 0, 0x0A, 0, 0, 0x64, 0x00, 0x05, 0xD5, 0xDD, 0x22, 0x0C, 0x9D, 0x02,
            0x18,
        ],
    ),
];

/// A select with SQ 1, in sizes of one octet each, with that tag and without it.
const SELECT: [u8; 13] = [
    58, 0x81, 6, 1, 10, 0x81, 0xD5, 0xDD, 0x22, 0x0C, 0x9D, 0x02, 0x18,
];

const UNTAGGED: [u8; 6] = [45, 0x81, 6, 1, 10, 0x81];

/// Whether the octets, in sizes of one octet each, are these without their tag.
fn is_untagged(octets: &[u8], wanted: &[u8]) -> bool {
    let Ok(asdu) = read(SMALL, octets) else {
        return false;
    };
    if !is_tagged_command(asdu.kind) || asdu.number() != 1 {
        return false;
    }
    untag(&asdu).as_slice() == wanted
}

/// Commands with a tag: as they go down without it, and back.
#[test]
fn takes_tags_off_and_puts_them_on(rt: HostRuntime) {
    for (plain, tagged) in COMMANDS {
        assert!(rt; is_tagged_pair(plain, tagged));
    }
    assert!(rt; is_untagged(&SELECT, &UNTAGGED));
}
