//! Types of a record's fields, in the words of the format's own table (3.3).
//!
//! The same number is of another type in the [`header`](mod@crate::header). [`END`](crate::END) is of
//! both.

/// UUID: 16 bytes, exactly one in a record.
pub const UUID: u8 = 0x01;
/// Group.
pub const GROUP: u8 = 0x02;
/// Title: exactly one in a record, not empty.
pub const TITLE: u8 = 0x03;
/// Username.
pub const USER: u8 = 0x04;
/// Notes.
pub const NOTES: u8 = 0x05;
/// Password: exactly one in a record, not empty.
pub const PASSWORD: u8 = 0x06;
/// Creation Time.
pub const CREATION_TIME: u8 = 0x07;
/// Password Modification Time.
pub const PASSWORD_MODIFICATION_TIME: u8 = 0x08;
/// Last Access Time.
pub const LAST_ACCESS_TIME: u8 = 0x09;
/// Password Expiry Time; 0 is never.
pub const PASSWORD_EXPIRY_TIME: u8 = 0x0a;
/// Last Modification Time.
pub const LAST_MODIFICATION_TIME: u8 = 0x0c;
/// URL.
pub const URL: u8 = 0x0d;
/// Autotype.
pub const AUTOTYPE: u8 = 0x0e;
/// Password History.
pub const PASSWORD_HISTORY: u8 = 0x0f;
/// Password Policy.
pub const PASSWORD_POLICY: u8 = 0x10;
/// Password Expiry Interval.
pub const PASSWORD_EXPIRY_INTERVAL: u8 = 0x11;
/// Run Command.
pub const RUN_COMMAND: u8 = 0x12;
/// Double-Click Action.
pub const DOUBLE_CLICK_ACTION: u8 = 0x13;
/// EMail address.
pub const EMAIL: u8 = 0x14;
/// Protected Entry.
pub const PROTECTED: u8 = 0x15;
/// Own symbols for password.
pub const OWN_SYMBOLS: u8 = 0x16;
/// Shift Double-Click Action.
pub const SHIFT_DOUBLE_CLICK_ACTION: u8 = 0x17;
/// Password Policy Name.
pub const PASSWORD_POLICY_NAME: u8 = 0x18;
/// Entry keyboard shortcut.
pub const KEYBOARD_SHORTCUT: u8 = 0x19;
/// Two-Factor Key.
pub const TWO_FACTOR_KEY: u8 = 0x1b;
/// Credit Card Number.
pub const CREDIT_CARD_NUMBER: u8 = 0x1c;
/// Credit Card Expiration.
pub const CREDIT_CARD_EXPIRATION: u8 = 0x1d;
/// Credit Card Verif. Value.
pub const CREDIT_CARD_VERIFICATION: u8 = 0x1e;
/// Credit Card PIN.
pub const CREDIT_CARD_PIN: u8 = 0x1f;
/// QR Code.
pub const QR_CODE: u8 = 0x20;
