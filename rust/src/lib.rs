//! Reads and writes Password Safe V3 files in lent memory.
//!
//! Under every call is a call of a proved static library, which `include/talcfeather.h` describes. This
//! crate turns its numbers into Rust values, walks on by itself, and wipes what it was lent. It
//! allocates nothing, needs no `std` and has no dependency.
//!
//! A safe is read and listed:
//!
//! ```
//! use talcfeather::{read, record};
//!
//! let file = std::fs::read("../examples/floor.psafe3")?;
//! let mut workspace = [0; 4096];
//! let opened = read(&file, b"a whole floor of lathes", 1_000_000, &mut workspace)?;
//! for login in opened.records() {
//!     let login = login?;
//!     let [title, user] = [record::TITLE, record::USER].map(|kind| login.text(kind).unwrap_or(""));
//!     println!("{title}, {user}");
//! }
//! # let titles = opened.records().map(|login| login.unwrap().text(record::TITLE).unwrap());
//! # assert!(titles.eq(["Lathe 3", "Mill 1, spindle", "Label printer", "Sägewerk"]));
//! # Ok::<(), Box<dyn std::error::Error>>(())
//! ```
//!
//! One password is changed, and every other field stays byte for byte what it was:
//!
//! ```
//! use talcfeather::{read, record, write, Builder, Parts};
//! # fn random(bytes: &mut [u8]) {
//! #     let mut source = std::fs::File::open("/dev/urandom").unwrap();
//! #     std::io::Read::read_exact(&mut source, bytes).unwrap();
//! # }
//! # let (file, passphrase) = (std::fs::read("../examples/floor.psafe3")?, b"a whole floor of lathes");
//! # let (mut workspace, mut buffer, mut output) = ([0; 4096], [0; 4096], [0; 4096]);
//!
//! // Given: file, passphrase, workspace, buffer, output, and `random`, a function that fills bytes.
//! let opened = read(&file, passphrase, 1_000_000, &mut workspace)?;
//! let login = opened.find("62fc060b9dcfdd26844f36c7e392975f".parse()?)?.found.ok_or("no such login")?;
//! let old = login.first(record::PASSWORD).ok_or("no password")?;
//! let mut body = Builder::new(&mut buffer, random);
//! for field in opened.fields() {
//!     match field? {
//!         field if field.place == old.place => body.add(field.kind, "a new password")?,
//!         field => body.copy(&field)?,
//!     }
//! }
//! let length = write(passphrase, &Parts::fresh(10_000, random), body.body(), &mut output)?;
//! # let mut again = [0; 4096];
//! # let new = read(&output[..length], passphrase, 10_000, &mut again)?;
//! # let changed = new.find("62fc060b9dcfdd26844f36c7e392975f".parse()?)?.found.unwrap();
//! # assert_eq!(changed.text(record::PASSWORD), Some("a new password"));
//! # let others = |opened: &talcfeather::Opened, not: usize| {
//! #     let others = opened.fields().map(Result::unwrap).filter(|field| field.place != not);
//! #     others.map(|field| (field.kind, field.data.to_vec(), field.fill.to_vec())).collect::<Vec<_>>()
//! # };
//! # assert_eq!(others(&new, old.place), others(&opened, old.place));
//! # assert_ne!(Parts::of(&output, &new).unwrap().k, opened.k);
//! # Ok::<(), Box<dyn std::error::Error>>(())
//! ```
//!
//! Under these are calls that take one field at a time: a body is made, written, read and walked.
//!
//! ```
//! use talcfeather::{append, fill_needed, read, walk, write, Cursor, Parts, Value};
//!
//! // A body: header (Version), then one record (UUID, Title, Password).
//! let mut body = [0u8; 112];
//! let fields: [(u8, &[u8]); 6] = [
//!     (0x00, &[0x0e, 0x03]),
//!     (0xff, b""),
//!     (0x01, &[7; 16]),
//!     (0x03, b"Lathe"),
//!     (0x06, b"x"),
//!     (0xff, b""),
//! ];
//! let mut place = 0;
//! for (kind, data) in fields {
//!     let fill = [0u8; 15]; // from a random source, in a real file
//!     place = append(&mut body, place, kind, data, &fill[..fill_needed(data.len())])?;
//! }
//! assert_eq!(place, body.len());
//!
//! // Salt, keys and initial vector come from a random source, in a real file.
//! let parts = Parts { salt: [1; 32], iter: 2048, k: [2; 32], l: [3; 32], iv: [4; 16] };
//! let mut file = [0u8; 312];
//! write(b"passphrase", &parts, &body, &mut file)?;
//!
//! let mut workspace = [0u8; 112];
//! let opened = read(&file, b"passphrase", 1_000_000, &mut workspace)?;
//! assert_eq!((opened.counts.header_fields, opened.counts.records), (1, 1));
//! assert_eq!(opened.body(), body);
//!
//! let (version, next) = walk(opened.body(), Cursor::START)?.expect("a first field");
//! assert_eq!(version.value, Value::Number(0x030e));
//! assert_eq!(next.place, 16);
//! # Ok::<(), talcfeather::Refusal>(())
//! ```
//!
//! # What is wiped
//!
//! - the keys of [`Opened`] and of [`Parts`], and the whole workspace, when these are dropped;
//! - the stack that reading and writing took, when [`read`], [`read_counted`] or
//!   [`write`](write()) returns, accepted or refused: [`STACK`] bytes of it.
//!
//! Not wiped: what is the caller's own, such as the passphrase, the buffer of a [`Builder`], a copy of a
//! field; copies that a move of [`Opened`] or [`Parts`] may leave behind, so keep them where they were
//! made; registers, and what an operating system has swapped out. [`wipe`] is there for the caller's
//! memory. What is never dropped, as after `core::mem::forget` or an abort, is never wiped.
//!
//! # Stack
//!
//! [`judge`], [`find`] and [`export`] take some 54,600 bytes of stack, [`read`] and
//! [`write`](write()) take [`STACK`] and some. A thread that calls them needs as much.
//!
//! # The archive
//!
//! The static library is for x86-64 alone. This crate links `target/staticlib/libtalcfeather.a` of its
//! own tree, which `make library` makes. The environment variable `TALCFEATHER_ARCHIVE` names another,
//! by its full path; the file may have any name. [`version`] tells which version was linked.
#![no_std]
#![warn(missing_docs)]

mod append;
mod body;
mod builder;
mod fields;
pub mod header;
mod opened;
mod parts;
pub mod raw;
pub mod record;
mod records;
mod refusal;
mod replay;
mod safe;
mod stack;
mod table;
mod uuid;
mod value;
mod version;
mod walk;
mod wipe;

pub use append::{append, fill_needed};
pub use body::{find, judge, Counts, Search};
pub use builder::Builder;
pub use fields::{fields, header, Fields, Header};
pub use opened::Opened;
pub use parts::Parts;
pub use records::{records, Record, RecordFields, Records};
pub use refusal::Refusal;
pub use replay::{replay, standing, trace_record, Kind, Standing};
pub use safe::{read, read_counted, write, Work};
pub use stack::STACK;
pub use table::{export, import, row, Row};
pub use uuid::{NoUuid, Uuid};
pub use value::Value;
pub use version::{version, VERSION};
pub use walk::{walk, Cursor, Field, END};
pub use wipe::wipe;

/// No file is longer, in bytes.
pub const FILE_MAX: usize = 4_194_304;
/// No body is longer, in bytes.
pub const BODY_MAX: usize = 4_194_096;
/// No passphrase is longer, in bytes.
pub const PASSPHRASE_MAX: usize = 1024;
/// A file is this much longer than its body, in bytes.
pub const AROUND: usize = 200;
/// The smallest number of iterations.
pub const ITER_MIN: u32 = 2048;
/// A state has this length, in bytes.
pub const STATE_SIZE: usize = 131_072;
/// A record of a trace has this length, in bytes.
pub const TRACE_RECORD: usize = 32;
/// A state holds at most this many UUIDs.
pub const STATE_UUIDS: usize = 4096;
/// A row of a table has this length, in bytes.
pub const ROW_SIZE: usize = 256;
/// Where a row's UUID starts.
pub const ROW_UUID: usize = 0;
/// Where a row's title starts.
pub const ROW_TITLE: usize = 16;
/// Where a row's user name starts.
pub const ROW_USER: usize = 96;
/// Where a row's group starts.
pub const ROW_GROUP: usize = 176;
/// Where a row's days start: 4 bytes, signed, lowest first.
pub const ROW_DAYS: usize = 248;
/// Where a row's pad starts: 4 zeros.
pub const ROW_PAD: usize = 252;
/// The longest title that a row holds, in bytes.
pub const TITLE_ROOM: usize = 80;
/// The longest user name that a row holds, in bytes.
pub const USER_ROOM: usize = 80;
/// The longest group that a row holds, in bytes.
pub const GROUP_ROOM: usize = 72;
/// The days of a login without an expiry.
pub const NO_EXPIRY: i32 = 2_147_483_647;
