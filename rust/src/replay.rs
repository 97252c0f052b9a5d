//! Replaying recorded traces, and the standing of a login.

use crate::raw::{self, numbers};
use crate::{Refusal, Uuid, TRACE_RECORD};

/// What a record of a trace is of.
#[derive(Clone, Copy, Debug, PartialEq, Eq)]
#[repr(u8)]
pub enum Kind {
    /// The login was edited; this never reopens it.
    Edit = 1,
    /// The login was cancelled.
    Cancel = 2,
    /// The login was issued again.
    Reissue = 3,
}

/// The standing of a login, by the traces that a state has taken in.
#[derive(Clone, Copy, Debug, Default, PartialEq, Eq)]
pub struct Standing {
    /// A cancel has come, and no reissue with a greater time than the latest of them.
    pub cancelled: bool,
    /// The time of the latest cancel, in seconds since 1970-01-01.
    pub cancel: Option<u32>,
    /// The time of the latest reissue.
    pub reissue: Option<u32>,
}

/// One record of a trace, as it is stored: a trace is these, one after the other.
///
/// ```
/// use talcfeather::{trace_record, Kind};
/// let record = trace_record(&[7; 16], 0x0102_0304, Kind::Cancel);
/// assert_eq!(record[..16], [7; 16]);
/// assert_eq!(record[16..21], [4, 3, 2, 1, 2]);
/// assert_eq!(record[21..], [0; 11]);
/// ```
pub fn trace_record(uuid: impl Into<Uuid>, time: u32, kind: Kind) -> [u8; TRACE_RECORD] {
    let mut record = [0; TRACE_RECORD];
    record[..16].copy_from_slice(&uuid.into().0);
    record[16..20].copy_from_slice(&time.to_le_bytes());
    record[20] = kind as u8;
    record
}

/// Takes a whole trace into a state of [`STATE_SIZE`](crate::STATE_SIZE) bytes; a fresh one is
/// zero.
///
/// In which order traces come, and how often, changes no standing. An empty trace is accepted
/// and changes nothing: it checks a state that comes from a file.
///
/// # Refusals
///
/// The first that applies, in this order:
///
/// - [`State`](Refusal::State): the memory has another length, or is no state
/// - [`Trace`](Refusal::Trace): a record is cut, has an unknown kind, a pad that is not zero, or a
///   UUID that would be one more than [`STATE_UUIDS`](crate::STATE_UUIDS); with the number of the
///   first such record
///
/// The state is then what it was.
///
/// ```
/// use talcfeather::{replay, standing, trace_record, Kind, Refusal, Uuid, STATE_SIZE};
///
/// let (lathe, mill) = (Uuid([1; 16]), Uuid([2; 16]));
/// let mut state = [0u8; STATE_SIZE];
/// replay(&mut state, &trace_record(lathe, 500, Kind::Cancel))?;
/// replay(&mut state, &trace_record(lathe, 400, Kind::Reissue))?; // a late one
/// assert!(standing(&state, lathe)?.cancelled);
/// assert!(!standing(&state, mill)?.cancelled);
/// replay(&mut state, &trace_record(lathe, 501, Kind::Reissue))?;
/// assert!(!standing(&state, lathe)?.cancelled);
///
/// let mut trace = [0u8; 64];
/// trace[..32].copy_from_slice(&trace_record(mill, 600, Kind::Cancel));
/// assert_eq!(replay(&mut state, &trace), Err(Refusal::Trace(1))); // there is no kind 0
/// assert!(!standing(&state, mill)?.cancelled);
/// assert_eq!(replay(&mut state[1..], &[]), Err(Refusal::State));
/// # Ok::<(), Refusal>(())
/// ```
pub fn replay(state: &mut [u8], trace: &[u8]) -> Result<(), Refusal> {
    let mut answer = [0u8; 8];
    let (length, start) = (state.len(), state.as_mut_ptr());
    // Sound: the state is lent mutably, so it does not overlap the trace.
    let number =
        unsafe { raw::talc_replay(start, length, trace.as_ptr(), trace.len(), &mut answer) };
    Refusal::outcome(number).map_err(|refusal| match refusal {
        Refusal::Trace(_) => Refusal::Trace(u64::from_le_bytes(answer)),
        other => other,
    })
}

/// The standing of the login with that UUID; that of a UUID that never came is
/// `Standing::default()`.
///
/// # Refusals
///
/// - [`State`](Refusal::State): the memory has another length than [`STATE_SIZE`](crate::STATE_SIZE),
///   or the entry at which the look-up ends is none of a state. No other entry is checked; [`replay`]
///   with an empty trace checks them all.
///
/// Nothing is written but the answer.
///
/// ```
/// use talcfeather::{replay, standing, trace_record, Kind, Standing, STATE_SIZE};
///
/// let mut state = [0u8; STATE_SIZE];
/// assert_eq!(standing(&state, &[1; 16]), Ok(Standing::default()));
/// replay(&mut state, &trace_record(&[1; 16], 500, Kind::Cancel))?;
/// let expected = Standing { cancelled: true, cancel: Some(500), reissue: None };
/// assert_eq!(standing(&state, &[1; 16]), Ok(expected));
/// # Ok::<(), talcfeather::Refusal>(())
/// ```
pub fn standing(state: &[u8], uuid: impl Into<Uuid>) -> Result<Standing, Refusal> {
    let (Uuid(uuid), mut answer) = (uuid.into(), [0u8; 40]);
    // Sound: the slices are lent for the call, and the answer has the size that the call sets.
    let number = unsafe { raw::talc_standing(state.as_ptr(), state.len(), &uuid, &mut answer) };
    Refusal::outcome(number)?;
    let [cancelled, has_cancel, cancel, has_reissue, reissue] = numbers(&answer);
    let time = |has: u64, time: u64| (has != 0).then_some(time as u32);
    Ok(Standing {
        cancelled: cancelled != 0,
        cancel: time(has_cancel, cancel),
        reissue: time(has_reissue, reissue),
    })
}
