//! Types of the header's fields, in the words of the format's own table (3.2).
//!
//! The same number is of another type in a [`record`](mod@crate::record). [`END`](crate::END) is of
//! both.

/// Version: 2 bytes, of which the second is 03.
pub const VERSION: u8 = 0x00;
/// UUID of the database; no record's.
pub const UUID: u8 = 0x01;
/// Non-default preferences.
pub const PREFERENCES: u8 = 0x02;
/// Tree Display Status.
pub const TREE_DISPLAY_STATUS: u8 = 0x03;
/// Timestamp of last save.
pub const LAST_SAVE_TIME: u8 = 0x04;
/// Who performed last save.
pub const WHO_SAVED: u8 = 0x05;
/// What performed last save.
pub const WHAT_SAVED: u8 = 0x06;
/// Last saved by user.
pub const SAVED_BY_USER: u8 = 0x07;
/// Last saved on host.
pub const SAVED_ON_HOST: u8 = 0x08;
/// Database Name.
pub const NAME: u8 = 0x09;
/// Database Description.
pub const DESCRIPTION: u8 = 0x0a;
/// Database Filters.
pub const FILTERS: u8 = 0x0b;
/// Recently Used Entries.
pub const RECENTLY_USED: u8 = 0x0f;
/// Named Password Policies.
pub const NAMED_POLICIES: u8 = 0x10;
/// Empty Groups.
pub const EMPTY_GROUPS: u8 = 0x11;
/// Yubico.
pub const YUBICO: u8 = 0x12;
/// Last master password change.
pub const MASTER_PASSWORD_CHANGE: u8 = 0x13;
