//! `talc replay`: traces taken into a state file.

use crate::arguments::Arguments;
use crate::commands::Said;
use crate::trouble::Trouble;
use crate::{files, show};
use std::collections::BTreeSet;
use std::ffi::OsString;
use std::path::Path;
use talcfeather::{Refusal, Uuid, STATE_SIZE, STATE_UUIDS, TRACE_RECORD};

/// The state in that file, of the right length and checked all over.
pub fn load(path: &Path) -> Result<Vec<u8>, Trouble> {
    // One byte over the size is enough to see that a file is too long.
    let mut state = files::read(path, STATE_SIZE + 1)?;
    match talcfeather::replay(&mut state, &[]) {
        Ok(()) => Ok(state),
        Err(_) => Err(Trouble::no_state(path, state.len())),
    }
}

/// The state of a file that may be replaced; none where there is no file yet.
fn stored(path: &Path) -> Result<Option<Vec<u8>>, Trouble> {
    files::replaceable(path)?.then(|| load(path)).transpose()
}

fn trace(path: &OsString) -> Result<Vec<u8>, Trouble> {
    let path = Path::new(path);
    std::fs::read(path).map_err(|error| Trouble::input(path, error))
}

/// All files are read before any trace is taken: what can't be read ends the run with nothing done.
pub fn run(arguments: &Arguments) -> Result<Said, Trouble> {
    let (path, traces) = (arguments.path(0), &arguments.words()[1..]);
    let before = stored(path)?;
    let contents = traces.iter().map(trace).collect::<Result<Vec<_>, _>>()?;
    let mut state = before.clone().unwrap_or_else(|| vec![0; STATE_SIZE]);
    let (mut out, mut refused) = (String::new(), 0);
    for (name, trace) in traces.iter().zip(&contents) {
        out += &format!("{}: ", show::name(name));
        match take(&mut state, trace) {
            Ok(report) => out += &report,
            Err(Refusal::Trace(record)) => {
                refused += 1;
                out += &at_fault(trace, record);
            }
            Err(refusal) => return Err(Trouble::refused(path, refusal)),
        }
    }
    let done = match &before {
        None => "made",
        Some(before) if *before == state => "unchanged",
        Some(_) => "written",
    };
    if done != "unchanged" {
        files::write(path, &state)?;
    }
    out += &format!("{}: {done}\n", show::path(path));
    let ending = if refused == 0 { Ok(()) } else { Err(Trouble::Traces(refused, traces.len())) };
    Ok(Said { output: out.into_bytes(), note: None, ending })
}

/// What an accepted trace came to: its records, and a line for each login that it cancelled or
/// opened again, in the order in which the trace has them.
fn take(state: &mut [u8], trace: &[u8]) -> Result<String, Refusal> {
    let before = state.to_vec();
    talcfeather::replay(state, trace)?;
    let mut changes = Vec::new();
    let mut seen = BTreeSet::new();
    for record in trace.chunks_exact(TRACE_RECORD) {
        let uuid = Uuid(*record.first_chunk().expect("a record is longer than a UUID"));
        if seen.insert(uuid) {
            changes.extend(change(&before, state, uuid)?);
        }
    }
    let (records, changed) = (trace.len() / TRACE_RECORD, changes.len());
    Ok(format!("accepted; records: {records}, changed: {changed}\n{}", changes.concat()))
}

/// A line if the login stands otherwise than before, with the time that decided.
fn change(before: &[u8], after: &[u8], uuid: Uuid) -> Result<Option<String>, Refusal> {
    let old = talcfeather::standing(before, uuid)?;
    let new = talcfeather::standing(after, uuid)?;
    let (word, time) = match (old.cancelled, new.cancelled) {
        (false, true) => ("cancelled ", new.cancel),
        (true, false) => ("open again", new.reissue),
        _ => return Ok(None),
    };
    let time = time.map(show::time).unwrap_or_default();
    Ok(Some(format!("  {uuid}  {word}  {time}\n")))
}

/// The record at fault and, by its bytes, why.
fn at_fault(trace: &[u8], record: u64) -> String {
    let why = match trace.chunks(TRACE_RECORD).nth(record as usize) {
        Some(bytes) if bytes.len() < TRACE_RECORD => {
            format!("it is cut: {} of {TRACE_RECORD} bytes", bytes.len())
        }
        Some(bytes) if !(1..=3).contains(&bytes[20]) => format!("unknown kind {}", bytes[20]),
        Some(bytes) if bytes[21..].iter().any(|byte| *byte != 0) => "its pad is not zero".into(),
        _ => format!("one login more than {STATE_UUIDS}"),
    };
    let place = record.saturating_mul(TRACE_RECORD as u64);
    format!("refused, 16: record {record}, at byte {place}: {why}\n")
}
