//! UUIDs as text: what is read as one, and what is printed.

use peer::random::Random;
use std::collections::BTreeSet;
use talcfeather::{NoUuid, Uuid};

const COUNTED: Uuid = Uuid([
    0x01, 0x23, 0x45, 0x67, 0x89, 0xab, 0xcd, 0xef, 0x10, 0x32, 0x54, 0x76, 0x98, 0xba, 0xdc, 0xfe,
]);

#[test]
fn read() {
    let texts = [
        "0123456789abcdef1032547698badcfe",
        "0123456789ABCDEF1032547698BADCFE",
        "01234567-89ab-cdef-1032-547698badcfe",
        "-0-1-23456789aBcDeF1032547698badcf--e-",
    ];
    for text in texts {
        assert_eq!(text.parse(), Ok(COUNTED), "{text}");
    }
}

#[test]
fn not_read() {
    let digits = "0123456789abcdef1032547698badcfe";
    let texts =
        ["", "-", &digits[1..], &digits[2..], &(digits.to_string() + "0"), &digits.repeat(2)];
    for text in texts {
        assert_eq!(text.parse::<Uuid>(), Err(NoUuid), "{text}");
    }
    for (place, wrong) in
        (0..32).flat_map(|place| "/:@G`g+ _.\0{}ä٣０".chars().map(move |c| (place, c)))
    {
        let text = format!("{}{wrong}{}", &digits[..place], &digits[place + 1..]);
        assert_eq!(text.parse::<Uuid>(), Err(NoUuid), "{text}");
    }
    assert_eq!(NoUuid.to_string(), "a UUID is 32 hex digits, with or without hyphens");
}

/// Printed and read again, any UUID is the same.
#[test]
fn printed() {
    assert_eq!(COUNTED.to_string(), "0123456789abcdef1032547698badcfe");
    assert_eq!(format!("{COUNTED:?}"), COUNTED.to_string());
    assert_eq!(Uuid::default().to_string(), "0".repeat(32));
    let random = &mut Random(1);
    for _ in 0..1000 {
        let uuid = Uuid(random.array());
        let text = uuid.to_string();
        assert!(text.len() == 32 && text == text.to_lowercase(), "{text}");
        assert_eq!([text.parse(), text.to_uppercase().parse()], [Ok(uuid); 2]);
    }
}

/// To and from bytes, and in the order of the bytes.
#[test]
fn bytes() {
    assert_eq!(Uuid::from(<[u8; 16]>::from(COUNTED)), COUNTED);
    assert_eq!(Uuid::from(&COUNTED.0), COUNTED);
    assert_eq!(COUNTED.as_ref(), COUNTED.0);
    assert!(COUNTED == COUNTED.0 && COUNTED.0 == COUNTED);
    assert!(COUNTED != [0; 16] && [0; 16] != COUNTED);
    let mut low = COUNTED;
    low.0[15] = 0;
    let ordered = BTreeSet::from([COUNTED, low, Uuid::default(), COUNTED]);
    assert!(ordered.into_iter().eq([Uuid::default(), low, COUNTED]));
}
