//! Values from the standard's tables, and tags of known days.

use elements::{
    Bcr, Bsi, Coi, Cp56, Dco, Diq, Element, Nva, Qoi, Rco, Sco, SeNva, SeSva, Siq, Sva, TypeId,
    Verdict, Vti, judge, kind,
};

/// The octet, the type, the element's octets, whether it is tagged, and whether it goes in monitor
/// direction.
type Row = (u8, TypeId, usize, bool, bool);

/// All types.
const TABLE: [Row; 28] = [
    (1, TypeId::MSpNa1, 1, false, true),
    (30, TypeId::MSpTb1, 1, true, true),
    (3, TypeId::MDpNa1, 1, false, true),
    (31, TypeId::MDpTb1, 1, true, true),
    (5, TypeId::MStNa1, 2, false, true),
    (32, TypeId::MStTb1, 2, true, true),
    (7, TypeId::MBoNa1, 5, false, true),
    (33, TypeId::MBoTb1, 5, true, true),
    (9, TypeId::MMeNa1, 3, false, true),
    (34, TypeId::MMeTd1, 3, true, true),
    (11, TypeId::MMeNb1, 3, false, true),
    (35, TypeId::MMeTe1, 3, true, true),
    (13, TypeId::MMeNc1, 5, false, true),
    (36, TypeId::MMeTf1, 5, true, true),
    (15, TypeId::MItNa1, 5, false, true),
    (37, TypeId::MItTb1, 5, true, true),
    (70, TypeId::MEiNa1, 1, false, true),
    (45, TypeId::CScNa1, 1, false, false),
    (46, TypeId::CDcNa1, 1, false, false),
    (47, TypeId::CRcNa1, 1, false, false),
    (48, TypeId::CSeNa1, 3, false, false),
    (49, TypeId::CSeNb1, 3, false, false),
    (100, TypeId::CIcNa1, 1, false, false),
    (58, TypeId::CScTa1, 1, true, false),
    (59, TypeId::CDcTa1, 1, true, false),
    (60, TypeId::CRcTa1, 1, true, false),
    (61, TypeId::CSeTa1, 3, true, false),
    (62, TypeId::CSeTb1, 3, true, false),
];

/// Elements of each type, and the values that they show.
const SHOWN: [(TypeId, &[u8], i64); 29] = [
    // Quality and reserved bits show nothing.
    (TypeId::MSpNa1, &[0xF1], 1),
    (TypeId::MSpTb1, &[0xFE], 0),
    (TypeId::MDpNa1, &[0xF2], 2),
    (TypeId::MDpTb1, &[0x03], 3),
    (TypeId::MStNa1, &[0x3F, 0xFF], 63),
    (TypeId::MStTb1, &[0xC0, 0x00], -64),
    (TypeId::MStNa1, &[0xFF, 0x00], -1),
    (TypeId::MBoNa1, &[0x78, 0x56, 0x34, 0xF2, 0xFF], 0xF234_5678),
    (
        TypeId::MBoTb1,
        &[0xFF, 0xFF, 0xFF, 0xFF, 0x00],
        4_294_967_295,
    ),
    (TypeId::MMeNa1, &[0x00, 0x80, 0x00], -32_768),
    (TypeId::MMeTd1, &[0xFF, 0x7F, 0x80], 32_767),
    (TypeId::MMeNb1, &[0xFF, 0xFF, 0x80], -1),
    (TypeId::MMeTe1, &[0x02, 0x01, 0x00], 258),
    // The bits of the short floats 1 and -2.
    (TypeId::MMeNc1, &[0x00, 0x00, 0x80, 0x3F, 0x00], 0x3F80_0000),
    (TypeId::MMeTf1, &[0x00, 0x00, 0x00, 0xC0, 0x00], 0xC000_0000),
    (
        TypeId::MItNa1,
        &[0x00, 0x00, 0x00, 0x80, 0x1F],
        -2_147_483_648,
    ),
    (TypeId::MItTb1, &[0xFE, 0xFF, 0xFF, 0xFF, 0x00], -2),
    (TypeId::MEiNa1, &[0x82], 2),
    (TypeId::CScNa1, &[0x81], 1),
    (TypeId::CDcNa1, &[0x82], 2),
    (TypeId::CRcNa1, &[0x7D], 1),
    (TypeId::CSeNa1, &[0x00, 0xC0, 0x80], -16_384),
    (TypeId::CSeNb1, &[0x9C, 0xFF, 0x00], -100),
    (TypeId::CIcNa1, &[0x14], 20),
    (TypeId::CScTa1, &[0x81], 1),
    (TypeId::CDcTa1, &[0x82], 2),
    (TypeId::CRcTa1, &[0x7D], 1),
    (TypeId::CSeTa1, &[0x00, 0xC0, 0x80], -16_384),
    (TypeId::CSeTb1, &[0x9C, 0xFF, 0x00], -100),
];

/// Thursday 2024-02-29 12:34:56.789.
const THURSDAY: [u8; 7] = [0xD5, 0xDD, 0x22, 0x0C, 0x9D, 0x02, 0x18];

/// An octet of that tag in the place of its own, and the verdict on it then.
const CHANGES: [(usize, u8, Verdict); 14] = [
    (6, 0x18, Verdict::Good(1_709_210_096_789)),
    (6, 0x17, Verdict::NoSuchDay),
    (4, 0xBD, Verdict::WrongWeekday),
    (4, 0x1D, Verdict::Good(1_709_210_096_789)),
    (2, 0xA2, Verdict::MarkedInvalid),
    (3, 0x8C, Verdict::Good(1_709_210_096_789)),
    (1, 0xE9, Verdict::Good(1_709_210_099_861)),
    (1, 0xEA, Verdict::OutOfRange),
    (2, 0x3C, Verdict::OutOfRange),
    (3, 0x18, Verdict::OutOfRange),
    (4, 0x80, Verdict::OutOfRange),
    (5, 0x00, Verdict::OutOfRange),
    (5, 0x0D, Verdict::OutOfRange),
    (6, 0x64, Verdict::OutOfRange),
];

/// Whether each octet has the type of its row, or none.
fn are_types(rows: &[Row]) -> bool {
    for octet in 0..=255u8 {
        let row = rows.iter().find(|row| row.0 == octet);
        if kind(octet) != row.map(|row| row.1) {
            return false;
        }
    }
    true
}

/// Whether each type is as its row says.
fn are_as_logged(rows: &[Row]) -> bool {
    for (_, kind, size, tagged, monitor) in rows {
        if (kind.size(), kind.tagged(), kind.monitor()) != (*size, *tagged, *monitor) {
            return false;
        }
    }
    true
}

fn are_shown(shown: &[(TypeId, &[u8], i64)]) -> bool {
    for (kind, octets, value) in shown {
        if octets.len() != kind.size() || kind.value(octets) != *value {
            return false;
        }
    }
    true
}

fn are_judged(changes: &[(usize, u8, Verdict)]) -> bool {
    for (place, octet, wanted) in changes {
        let mut tag = THURSDAY;
        if let Some(changed) = tag.get_mut(*place) {
            *changed = *octet;
        }
        if judge(&Cp56(tag)) != *wanted {
            return false;
        }
    }
    true
}

// Each table is named by a function of its own: what a function costs the proof grows faster than
// the constants that it names.

fn are_all_types() -> bool {
    let rows = &TABLE;
    are_types(rows) && are_as_logged(rows)
}

fn are_all_shown() -> bool {
    are_shown(&SHOWN)
}

fn are_all_judged() -> bool {
    are_judged(&CHANGES)
}

#[test]
fn types_values_and_tags(rt: HostRuntime) {
    assert!(rt; are_all_types());
    assert!(rt; are_all_shown());
    assert!(rt; are_all_judged());
    // A day that doesn't exist comes before a wrong day of the week, and that before IV.
    assert!(rt;
        judge(&Cp56([0, 0, 0x80, 0, 0x7D, 2, 23])) == Verdict::NoSuchDay
            && judge(&Cp56([0, 0, 0x80, 0, 0xBD, 2, 24])) == Verdict::WrongWeekday
    );
}

/// Whether an element is written as these octets, over others, and read from them.
fn is_carried<E: Element + PartialEq + Drop>(element: &E, octets: &[u8]) -> bool {
    let mut out = [0xAA; 8];
    if octets.len() > out.len() {
        return false;
    }
    let out = &mut out[..octets.len()];
    element.put(out);
    *out == *octets && E::get(octets) == *element
}

// All bits are carried: reserved ones, quality, and the sign.
#[test]
fn carries_elements(rt: HostRuntime) {
    assert!(rt; is_carried(&Siq(0xFE), &[0xFE]));
    assert!(rt; is_carried(&Diq(0x8F), &[0x8F]));
    assert!(rt;
        is_carried(
            &Vti {
                vti: 0xC0,
                quality: 0xFF
            },
            &[0xC0, 0xFF]
        )
    );
    assert!(rt;
        is_carried(
            &Bsi {
                bits: 0xF234_5678,
                quality: 0x81
            },
            &[0x78, 0x56, 0x34, 0xF2, 0x81]
        )
    );
    assert!(rt;
        is_carried(
            &Nva {
                value: -32_768,
                quality: 0x0E
            },
            &[0x00, 0x80, 0x0E]
        )
    );
    assert!(rt;
        is_carried(
            &Sva {
                value: -2,
                quality: 0x80
            },
            &[0xFE, 0xFF, 0x80]
        )
    );
    assert!(rt;
        is_carried(
            &Bcr {
                reading: -2_147_483_648,
                sequence: 0xFF
            },
            &[0x00, 0x00, 0x00, 0x80, 0xFF]
        )
    );
    assert!(rt; is_carried(&Coi(0x82), &[0x82]));
    assert!(rt; is_carried(&Sco(0xFF), &[0xFF]));
    assert!(rt; is_carried(&Dco(0x83), &[0x83]));
    assert!(rt; is_carried(&Rco(0x7D), &[0x7D]));
    assert!(rt;
        is_carried(
            &SeNva {
                value: -16_384,
                qualifier: 0x81
            },
            &[0x00, 0xC0, 0x81]
        )
    );
    assert!(rt;
        is_carried(
            &SeSva {
                value: 258,
                qualifier: 0x7F
            },
            &[0x02, 0x01, 0x7F]
        )
    );
    assert!(rt; is_carried(&Qoi(0x14), &[0x14]));
}
