//! Writes a trace from lines of UUID, time (seconds since 1970-01-01) and kind (edit, cancel or
//! reissue), with blanks between. The traces beside this project's example safe were made so:
//!
//! ```text
//! cargo run --release --example trace -- ../examples/tablet-1.trace <<END
//! 62fc060b9dcfdd26844f36c7e392975f 1793606400 cancel
//! 455aff5673fabadf706c213588743bc8 1793611800 cancel
//! END
//! cargo run --release --example trace -- ../examples/tablet-2.trace <<END
//! 62fc060b9dcfdd26844f36c7e392975f 1793378700 reissue
//! 62fc060b9dcfdd26844f36c7e392975f 1793701200 edit
//! 455aff5673fabadf706c213588743bc8 1793776500 reissue
//! END
//! ```

use std::error::Error;
use std::io::stdin;
use talcfeather::{trace_record, Kind, Uuid, TRACE_RECORD};

fn record(line: &str) -> Result<[u8; TRACE_RECORD], Box<dyn Error>> {
    let words: Vec<&str> = line.split_whitespace().collect();
    let &[login, time, kind] = &words[..] else {
        return Err("a line needs UUID, time and kind".into());
    };
    let kind = match kind {
        "edit" => Kind::Edit,
        "cancel" => Kind::Cancel,
        "reissue" => Kind::Reissue,
        _ => return Err("a kind is edit, cancel or reissue".into()),
    };
    Ok(trace_record(login.parse::<Uuid>()?, time.parse()?, kind))
}

fn main() -> Result<(), Box<dyn Error>> {
    let out = std::env::args_os().nth(1).ok_or("trace OUT < LINES")?;
    let mut trace = Vec::new();
    for line in stdin().lines() {
        trace.extend(record(&line?)?);
    }
    std::fs::write(out, trace)?;
    Ok(())
}
