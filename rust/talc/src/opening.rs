//! A safe's file, read and then opened.

use crate::arguments::Arguments;
use crate::secret::Secret;
use crate::trouble::Trouble;
use crate::{files, passphrase, progress};
use std::path::{Path, PathBuf};
use std::time::{Duration, Instant};
use talcfeather::{Opened, Refusal, Work, AROUND, FILE_MAX, ITER_MIN};

/// Where a file has its ITER.
const ITER: usize = 36;
/// The marker begins this far from the end of a file.
const FROM_END: usize = 48;

/// A file that some passphrase may open.
pub struct Closed {
    pub path: PathBuf,
    pub bytes: Vec<u8>,
    ceiling: u32,
}

impl Closed {
    /// Reads the file, and refuses what no passphrase opens: so nobody is asked for one in vain.
    pub fn read(path: &Path, ceiling: u32) -> Result<Closed, Trouble> {
        // One byte over the limit is enough for the refusal of longer files.
        let bytes = match path == Path::new("-") {
            true => files::read_stdin(FILE_MAX + 1)?,
            false => files::read(path, FILE_MAX + 1)?,
        };
        Closed::of(path, bytes, ceiling)
    }

    /// Of bytes that were read.
    pub fn of(path: &Path, bytes: Vec<u8>, ceiling: u32) -> Result<Closed, Trouble> {
        let closed = Closed { path: path.into(), bytes, ceiling };
        could_be_opened(&closed.bytes, ceiling).map_err(|refusal| closed.refused(refusal))?;
        Ok(closed)
    }

    /// The memory that opening it needs.
    pub fn workspace(&self) -> Vec<u8> {
        vec![0; self.bytes.len().saturating_sub(AROUND)]
    }

    pub fn open<'w>(
        &self,
        passphrase: &Secret,
        workspace: &'w mut [u8],
    ) -> Result<(Opened<'w>, Work), Trouble> {
        let what = format!("stretching the passphrase, {} rounds", rounds(&self.bytes));
        let (outcome, work) = progress::during_about(&what, expected(&self.bytes), || {
            talcfeather::read_counted(&self.bytes, &passphrase.0, self.ceiling, workspace)
        });
        let refused = |refusal| match (refusal, hint(&passphrase.0)) {
            (Refusal::Wrong, hint) if !hint.is_empty() => {
                Trouble::advised(&self.path, refusal, hint.to_string())
            }
            _ => self.refused(refusal),
        };
        outcome.map(|opened| (opened, work)).map_err(refused)
    }

    pub fn refused(&self, refusal: Refusal) -> Trouble {
        Trouble::refused(&self.path, refusal)
    }
}

/// Opens the safe that is a command's first word, and has something done with it.
pub fn with<T>(
    arguments: &Arguments,
    done: impl FnOnce(&Closed, &Opened, Work) -> Result<T, Trouble>,
) -> Result<T, Trouble> {
    let closed = Closed::read(arguments.path(0), arguments.ceiling())?;
    let passphrase = passphrase::get(&arguments.source())?;
    let mut workspace = closed.workspace();
    let (opened, work) = closed.open(&passphrase, &mut workspace)?;
    done(&closed, &opened, work)
}

/// Refuses a file that no passphrase opens: 1, 4, 5, 6 and 7, which the library tells before it
/// stretches. Of the file itself it would go on to stretch; so it is asked of two copies. In one the
/// marker is none: what is not refused as 1, 4, 5 or 6 is 7 there, and these four do not depend on the
/// marker. The other has the smallest ITER, under which 2,048 rounds with no passphrase are all the
/// work: whether it is refused as 7 does not depend on ITER, and comes before the passphrase is tried.
fn could_be_opened(file: &[u8], ceiling: u32) -> Result<(), Refusal> {
    let mut copy = file.to_vec();
    let end = copy.len();
    if let Some(marker) = copy.get_mut(end.saturating_sub(FROM_END)..).and_then(|m| m.first_mut()) {
        *marker ^= 1;
    }
    match refusal(&copy, ceiling) {
        Some(Refusal::Marker) | None => {}
        Some(refusal) => return Err(refusal),
    }
    copy.copy_from_slice(file);
    set_rounds(&mut copy, ITER_MIN);
    match refusal(&copy, ITER_MIN) {
        Some(Refusal::Marker) => Err(Refusal::Marker),
        _ => Ok(()),
    }
}

/// How the library refuses the file under an empty passphrase.
fn refusal(file: &[u8], ceiling: u32) -> Option<Refusal> {
    let mut workspace = vec![0; file.len().saturating_sub(AROUND)];
    talcfeather::read(file, b"", ceiling, &mut workspace).err()
}

/// How many rounds the file asks for.
fn rounds(file: &[u8]) -> u32 {
    let iter = file.get(ITER..).and_then(|rest| rest.first_chunk());
    iter.map_or(0, |iter| u32::from_le_bytes(*iter))
}

fn set_rounds(file: &mut [u8], rounds: u32) {
    if let Some(iter) = file.get_mut(ITER..ITER + 4) {
        iter.copy_from_slice(&rounds.to_le_bytes());
    }
}

/// How long stretching will take, about: by a short one that is timed. Nothing where it is too short
/// for anyone to wait.
fn expected(file: &[u8]) -> Option<Duration> {
    const MANY: u32 = 1_000_000;
    const FEW: u32 = 50_000;
    let rounds = rounds(file);
    if rounds < MANY {
        return None;
    }
    let mut copy = file.to_vec();
    set_rounds(&mut copy, FEW);
    let start = Instant::now();
    let _ = refusal(&copy, FEW);
    Some(start.elapsed() * (rounds / FEW))
}

/// What may be wrong with a passphrase that is not the file's, though it looks right to a person.
fn hint(passphrase: &[u8]) -> &'static str {
    let marks: [&[u8]; 3] = [b"\xef\xbb\xbf", b"\xff\xfe", b"\xfe\xff"];
    if marks.iter().any(|mark| passphrase.starts_with(mark)) {
        "it starts with a byte order mark, which is taken for a part of it: save the file that it is \
         in as UTF-8 without one"
    } else if passphrase.ends_with(b"\r") {
        "it ends in a carriage return, which is taken for a part of it: end the line that it is in \
         with a newline alone, or with nothing"
    } else {
        ""
    }
}

#[test]
fn hints() {
    let cases: [(&[u8], &str); 7] = [
        (b"floor 2\r", "carriage return"),
        (b"\r", "carriage return"),
        (b"floor\r 2", ""),
        (b"\xef\xbb\xbffloor 2", "byte order mark"),
        (b"\xff\xfef\0", "byte order mark"),
        (b"floor \xef\xbb\xbf", ""),
        (b"", ""),
    ];
    for (passphrase, words) in cases {
        assert!(hint(passphrase).contains(words));
        assert_eq!(hint(passphrase).is_empty(), words.is_empty());
    }
}
