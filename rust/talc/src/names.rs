//! Names of field types, by the format's own tables (3.2 and 3.3).

use talcfeather::{record, END};

const HEADER: [&str; 20] = [
    "Version",
    "UUID",
    "Non-default preferences",
    "Tree Display Status",
    "Timestamp of last save",
    "Who performed last save",
    "What performed last save",
    "Last saved by user",
    "Last saved on host",
    "Database Name",
    "Database Description",
    "Database Filters",
    "Reserved",
    "Reserved",
    "Reserved",
    "Recently Used Entries",
    "Named Password Policies",
    "Empty Groups",
    "Yubico",
    "Last master password change",
];

const RECORD: [&str; 33] = [
    "Unknown",
    "UUID",
    "Group",
    "Title",
    "Username",
    "Notes",
    "Password",
    "Creation Time",
    "Password Modification Time",
    "Last Access Time",
    "Password Expiry Time",
    "Reserved",
    "Last Modification Time",
    "URL",
    "Autotype",
    "Password History",
    "Password Policy",
    "Password Expiry Interval",
    "Run Command",
    "Double-Click Action",
    "EMail address",
    "Protected Entry",
    "Own symbols for password",
    "Shift Double-Click Action",
    "Password Policy Name",
    "Entry keyboard shortcut",
    "Reserved",
    "Two-Factor Key",
    "Credit Card Number",
    "Credit Card Expiration",
    "Credit Card Verif. Value",
    "Credit Card PIN",
    "QR Code",
];

pub fn name(kind: u8, in_record: bool) -> &'static str {
    let names: &[&str] = if in_record { &RECORD } else { &HEADER };
    match kind {
        END => "End of Entry",
        0xe0..=0xfe => "Implementation-specific",
        _ => names.get(usize::from(kind)).copied().unwrap_or("Unknown"),
    }
}

/// Password and history, two-factor key, card data, QR code.
pub fn is_secret(kind: u8, in_record: bool) -> bool {
    let secret = matches!(
        kind,
        record::PASSWORD | record::PASSWORD_HISTORY | record::TWO_FACTOR_KEY..=record::QR_CODE
    );
    in_record && secret
}
