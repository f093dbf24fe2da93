//! Elements and time tags: the crate `elements` (IEC 60870-5-101, 7.2.2 and 7.2.6).
use elements::{Cp56, Element, Nva, TypeId, Verdict, cause_name, judge, kind, type_name};

/// Thursday 2024-02-29 12:34:56.789.
const THURSDAY: [u8; 7] = [0xD5, 0xDD, 0x22, 0x0C, 0x9D, 0x02, 0x18];

#[test]
fn elements_and_tags(rt: HostRuntime) {
    // The least normalised value.
    let least = Nva {
        value: -32_768,
        quality: 0,
    };
    let mut octets = [0xFF; 3];
    least.put(&mut octets);
    assert_eq!(rt; octets, [0x00, 0x80, 0x00]);
    assert_eq!(rt; Nva::get(&octets), least);
    assert_eq!(rt; kind(2), None);
    let kind = kind(34);
    assert_eq!(rt; kind, Some(TypeId::MMeTd1));
    assert_eq!(rt; TypeId::MMeTd1.size(), 3);
    assert!(rt; TypeId::MMeTd1.tagged());
    assert!(rt; TypeId::MMeTd1.monitor());
    assert_eq!(rt; TypeId::MMeTd1.value(&octets), -32_768);
    assert_eq!(rt; judge(&Cp56(THURSDAY)), Verdict::Good(1_709_210_096_789));
    // There is no 2023-02-29.
    let mut no_day = THURSDAY;
    no_day[6] = 0x17;
    assert_eq!(rt; judge(&Cp56(no_day)), Verdict::NoSuchDay);
    assert_eq!(rt; type_name(103), Some("C_CS_NA_1"));
    assert_eq!(rt; cause_name(44), Some("unknown type"));
}
