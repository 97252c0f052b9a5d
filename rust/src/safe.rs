//! Reading and writing whole files.

use crate::raw::{self, numbers};
use crate::{stack, wipe, Counts, Opened, Parts, Refusal, AROUND};

/// The work that a reading reports, accepted or refused.
#[derive(Clone, Copy, Debug, Default, PartialEq, Eq)]
pub struct Work {
    /// SHA-256 compressions spent on stretching and its check.
    pub compressions: u64,
    /// Twofish blocks decrypted.
    pub blocks: u64,
}

/// Reads a whole file.
///
/// The passphrase is taken as given, 0 to 1,024 bytes of any content. The ceiling is the largest ITER
/// that is worth waiting for. The workspace needs [`AROUND`] bytes less than the file; accepted, it
/// holds the body and zeros after it, until [`Opened`] is dropped and wipes it.
///
/// # Refusals
///
/// The first that applies, in this order:
///
/// - [`Length`](Refusal::Length): the file is under 232 bytes, over 4,194,304, or not 200 longer than
///   a multiple of 16
/// - [`Passphrase`](Refusal::Passphrase): it is over 1,024 bytes
/// - [`Room`](Refusal::Room): the workspace is shorter than the body
/// - [`Tag`](Refusal::Tag): the file does not start with PWS3
/// - [`Iter`](Refusal::Iter): the file's ITER is under 2,048
/// - [`Ceiling`](Refusal::Ceiling): the file's ITER is above the ceiling
/// - [`Marker`](Refusal::Marker): the first marker is not where the file's length says
/// - [`Wrong`](Refusal::Wrong): another passphrase, or damage in the file's first 72 bytes
/// - [`Body`](Refusal::Body): the body is not well formed, as where two records have the same UUID, or
///   the HMAC differs
///
/// The whole workspace is then zero. All up to `Marker` come before any stretching.
pub fn read<'w>(
    file: &[u8],
    passphrase: &[u8],
    ceiling: u32,
    workspace: &'w mut [u8],
) -> Result<Opened<'w>, Refusal> {
    let _clearing = stack::Clearing;
    reading(file, passphrase, ceiling, workspace, &mut Work::default())
}

/// Reads a whole file, and reports the work it took, refused or not. All else is as [`read`] says.
///
/// # Refusals
///
/// Those of [`read`]. Up to `Marker` no work is reported; with `Wrong`, no blocks.
///
/// ```
/// let mut workspace = [1u8; 8];
/// let (outcome, work) = talcfeather::read_counted(b"", b"", 2048, &mut workspace);
/// assert_eq!(outcome.unwrap_err(), talcfeather::Refusal::Length);
/// assert_eq!((work.compressions, work.blocks), (0, 0));
/// assert_eq!(workspace, [0; 8]);
/// ```
pub fn read_counted<'w>(
    file: &[u8],
    passphrase: &[u8],
    ceiling: u32,
    workspace: &'w mut [u8],
) -> (Result<Opened<'w>, Refusal>, Work) {
    let _clearing = stack::Clearing;
    counting(file, passphrase, ceiling, workspace)
}

/// As [`reading`], below.
#[inline(never)]
fn counting<'w>(
    file: &[u8],
    passphrase: &[u8],
    ceiling: u32,
    workspace: &'w mut [u8],
) -> (Result<Opened<'w>, Refusal>, Work) {
    let mut work = Work::default();
    let outcome = reading(file, passphrase, ceiling, workspace, &mut work);
    (outcome, work)
}

/// A function of its own, so that whoever calls it clears its frame too: keys pass through it.
#[inline(never)]
fn reading<'w>(
    file: &[u8],
    passphrase: &[u8],
    ceiling: u32,
    workspace: &'w mut [u8],
    work: &mut Work,
) -> Result<Opened<'w>, Refusal> {
    let mut answer = [0u8; 96];
    // Sound: the workspace is lent mutably, so it overlaps neither file nor passphrase.
    let number = unsafe {
        raw::talc_read(
            file.as_ptr(),
            file.len(),
            passphrase.as_ptr(),
            passphrase.len(),
            ceiling,
            workspace.as_mut_ptr(),
            workspace.len(),
            &mut answer,
        )
    };
    let [header_fields, records, compressions, blocks] = numbers(&answer[64..]);
    *work = Work { compressions, blocks };
    let outcome = Refusal::outcome(number).map(|()| {
        let (counts, length) =
            (Counts { header_fields, records }, file.len().saturating_sub(AROUND));
        let mut opened = Opened { k: [0; 32], l: [0; 32], counts, workspace, length };
        opened.k.copy_from_slice(&answer[..32]);
        opened.l.copy_from_slice(&answer[32..64]);
        opened
    });
    wipe(&mut answer);
    outcome
}

/// Writes a whole file into the output and answers its length: [`AROUND`] bytes more than the body.
/// Zeros follow it.
///
/// # Refusals
///
/// The first that applies, in this order:
///
/// - [`Length`](Refusal::Length): the body is under 32 bytes, over 4,194,096, or no multiple of 16
/// - [`Passphrase`](Refusal::Passphrase): it is over 1,024 bytes
/// - [`Room`](Refusal::Room): the output is shorter than the file
/// - [`Iter`](Refusal::Iter): it is under 2,048
/// - [`Body`](Refusal::Body): the body is not well formed, as where two records have the same UUID
/// - [`Collision`](Refusal::Collision): an encrypted block equals the marker; take another initial
///   vector
///
/// The whole output is then zero.
///
/// ```
/// use talcfeather::{write, Parts, Refusal};
///
/// let parts = Parts { salt: [1; 32], iter: 2047, k: [2; 32], l: [3; 32], iv: [4; 16] };
/// let mut output = [0u8; 232];
/// assert_eq!(write(b"", &parts, &[0; 32], &mut output), Err(Refusal::Iter));
/// ```
pub fn write(
    passphrase: &[u8],
    parts: &Parts,
    body: &[u8],
    output: &mut [u8],
) -> Result<usize, Refusal> {
    // Sound: the output is lent mutably, so it overlaps nothing else.
    let number = unsafe {
        raw::talc_write(
            passphrase.as_ptr(),
            passphrase.len(),
            &parts.salt,
            parts.iter,
            &parts.k,
            &parts.l,
            &parts.iv,
            body.as_ptr(),
            body.len(),
            output.as_mut_ptr(),
            output.len(),
        )
    };
    stack::clear();
    Refusal::outcome(number).map(|()| body.len() + AROUND)
}
